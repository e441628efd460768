"""Detectors and observables with a bit or a byte for each, and arrays of numpy for callers who have them.

Packed bits are those of Stim's format b8: the lowest of each byte comes first. Nothing here needs numpy.
"""

DIGITS = bytes([*b"01", *b"?" * 254])


def bytes_of(bits):
    """How many bytes hold a number of bits."""
    return (bits + 7) // 8


def packed(values):
    """Bytes that are each 0 or 1, as packed bits."""
    digits = values.translate(DIGITS)
    if b"?" in digits:
        raise ValueError("each detector is 0 or 1")
    return int(digits[::-1] or b"0", 2).to_bytes(bytes_of(len(values)), "little")


def unpacked(number, count):
    """The lowest bits of a number, a byte for each."""
    return bytes(number >> k & 1 for k in range(count))


def is_array(data):
    return all(hasattr(data, name) for name in ("shape", "dtype", "tobytes"))


def has_bytes(data):
    """Whether the numbers are in an array that has a byte for each."""
    return is_array(data) and data.dtype in ("uint8", "bool")


def values_of(numbers):
    """A list or an array of numbers from 0 to 255, as bytes."""
    return numbers.tobytes() if has_bytes(numbers) else bytes(map(int, numbers))


def rows_of(numbers):
    """The rows of a list of lists or of an array with two axes, each as bytes."""
    if not has_bytes(numbers):
        return [values_of(row) for row in numbers]
    (count, width), data = numbers.shape, numbers.tobytes()
    return [data[k * width : (k + 1) * width] for k in range(count)]


def demand_packed(array, size):
    """Refuses an array that hasn't so many packed bytes in each of its rows."""
    if array.dtype != "uint8" or len(array.shape) != 2 or array.shape[1] != size:
        wanted = f"uint8 and (shots, {size})"
        raise ValueError(f"packed shots of type {array.dtype} and shape {array.shape}, in place of {wanted}")


def array_of(data, shape, kind="uint8"):
    """Bytes as an array of numpy, which the caller may write to."""
    import numpy

    return numpy.frombuffer(bytearray(data), dtype=kind).reshape(shape)
