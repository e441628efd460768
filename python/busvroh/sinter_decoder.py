"""A decoder for sinter, and for others who have shots as packed bits.

    sinter.collect(.., decoders=["busvroh"], custom_decoders=sinter_decoders())

Without sinter the classes are the same, but derive from nothing.
"""

import io

from busvroh.bits import array_of, demand_packed, is_array
from busvroh.decoding import Settings
from busvroh.program import find_program
from busvroh.two_passes import decoding_of

try:
    import sinter
except ImportError:
    sinter = None


class SinterDecoder(getattr(sinter, "Decoder", object)):
    """Decodes by the program that is named, that of the variable `FUSION`, or the one of this repository.

    The keywords are those of `Settings`, as `correlated=True` for two passes. A shot without correction flips nothing, and
    `odd_shots` counts them.
    """

    def __init__(self, program=None, **settings):
        self.settings = Settings(find_program(program), **settings)
        self.odd_shots = 0

    def compile_decoder_for_dem(self, *, dem):
        """A decoder for a detector error model, that is, any object of which `str` is one."""
        return CompiledSinterDecoder(decoding_of(str(dem).splitlines(), self.settings))

    def decode_via_files(
        self, *, num_shots, num_dets, num_obs, dem_path, dets_b8_in_path, obs_predictions_b8_out_path, tmp_dir
    ):
        """Decodes a file of shots to a file of flips, a part of it at a time."""
        with open(dem_path, encoding="utf-8", errors="surrogateescape") as lines:
            decoding = decoding_of(lines, self.settings)
        of_model = decoding.detectors, decoding.observables.count
        if of_model != (num_dets, num_obs):
            raise ValueError(f"a model of {of_model} detectors and observables, in place of {num_dets, num_obs}")
        with open(dets_b8_in_path, "rb") as shots, open(obs_predictions_b8_out_path, "wb") as predictions:
            for flips in decoding.flips(decoding.parts(shots, num_shots), tmp_dir):
                predictions.write(flips.bits)
                self.odd_shots += flips.odd


class CompiledSinterDecoder(getattr(sinter, "CompiledDecoder", object)):
    """Decodes shots of one model. `odd_shots` counts those that had no correction, and flip nothing."""

    def __init__(self, decoding):
        self.decoding, self.odd_shots = decoding, 0

    def decode_shots_bit_packed(self, *, bit_packed_detection_event_data):
        """The flips of shots: an array of bytes with a row for each shot gives such an array, and bytes give bytes."""
        data, size = bit_packed_detection_event_data, self.decoding.shot_bytes
        if not is_array(data):
            return bytes(self.flips(data, len(data) // max(1, size)))
        demand_packed(data, size)
        shots = data.shape[0]
        return array_of(self.flips(data.tobytes(), shots), (shots, self.decoding.observables.size))

    def flips(self, data, shots):
        all_flips = bytearray()
        for flips in self.decoding.flips(self.decoding.parts(io.BytesIO(data), shots)):
            all_flips += flips.bits
            self.odd_shots += flips.odd
        return all_flips


def sinter_decoders():
    """What sinter takes as `custom_decoders`, and by `--custom_decoders_module_function busvroh:sinter_decoders`."""
    return {"busvroh": SinterDecoder()}
