"""binary32 as the tables have it: bits, shortest decimals, one rounding an operation."""
import math
import struct


def f32(x: float) -> float:
    """The nearest binary32."""
    return struct.unpack("<f", struct.pack("<f", x))[0]


def bits(x: float) -> str:
    return f"{struct.unpack('<I', struct.pack('<f', x))[0]:08x}"


def from_bits(text: str) -> float:
    return struct.unpack("<f", struct.pack("<I", int(text, 16)))[0]


def decimal(x: float) -> str:
    """The shortest decimal that is this binary32 again."""
    if not math.isfinite(x):
        return str(x)
    for digits in range(1, 10):
        text = f"{x:.{digits}g}"
        if f32(float(text)) == x:
            break
    text = f"{float(text):.10f}".rstrip("0").rstrip(".") if "e" in text else text
    return "0" if text in ("-0", "") else text


def whole(x: float) -> int:
    """The nearest whole pixel, halves up; exact, as a binary32 and a half fit a double."""
    return math.floor(x + 0.5)
