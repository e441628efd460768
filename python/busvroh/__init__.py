"""Python around `fusion`: from a detector error model to the graph that it decodes, and on to flipped observables.

`busvroh.models` reads detector error models in Stim's form, `busvroh.codes` and `busvroh.circuits` make them and draw shots.
`SinterDecoder` is a decoder for sinter, and `Matching` has the names of PyMatching; both run the built program, once or in two
passes (`busvroh.two_passes`). `busvroh.gaps` tells how sure each decoding is. Only the standard library is needed.
"""

HOMES = {"Matching": "matching", "SinterDecoder": "sinter_decoder", "sinter_decoders": "sinter_decoder"}


def __getattr__(name):
    # Late, so that who needs no decoder doesn't wait for sinter.
    if name not in HOMES:
        raise AttributeError(f"module {__name__!r} has no attribute {name!r}")
    from importlib import import_module

    return getattr(import_module(f"{__name__}.{HOMES[name]}"), name)
