"""AX.25 frames written by `owac` as bursts, turned into audio, heard by direwolf and multimon-ng.

AX.25 has the same flags, stuffing, FCS and tones as our bursts, so both programs can check them.
"""

import argparse
import array
import math
import os
import random
import re
import string
import subprocess
import sys
import tempfile
import wave

BAUD = 1200
MARK, SPACE = 1200, 2200      # Hz
LOUDNESS = 12_000


# The frame

def address(call, last):
    """Six letters shifted left by one, then the station's number; the last one is marked."""
    return bytes(ord(letter) << 1 for letter in call.ljust(6)) + bytes([0x60 | last])


def ui_frame(to, sender, text):
    """An unnumbered information frame without a layer above it."""
    return address(to, 0) + address(sender, 1) + b"\x03\xf0" + text.encode()


def random_text(rng):
    letters = string.ascii_letters + string.digits + " .,+-=()/"
    return "job " + "".join(rng.choice(letters) for _ in range(rng.randint(1, 200))) + " end"


# The burst

def written(program, frames):
    """The tones of each frame's burst, as `owac` writes them: True is mark."""
    lines = [f"write {frame.hex()} room=2000" for frame in frames]
    done = subprocess.run([program, "script"], input="\n".join(lines) + "\n",
                          capture_output=True, text=True, check=True)
    for said in done.stdout.splitlines():
        found = re.match(r"burst ([0-9A-Fa-f]+) count=(\d+)", said)
        if not found:
            sys.exit(f"no burst: {said[:100]}")
        octets = bytes.fromhex(found.group(1))
        yield [octets[k // 8] >> k % 8 & 1 == 1 for k in range(int(found.group(2)))]


# The sound

def sound(bursts, rate):
    """16 bit samples, the phase going on from tone to tone; silence around each burst."""
    samples = array.array("h")
    phase = 0.0
    for tones in bursts:
        samples.extend([0] * (rate // 4))
        begun = len(samples)
        for number, mark in enumerate(tones):
            step = 2 * math.pi * (MARK if mark else SPACE) / rate
            while (len(samples) - begun) * BAUD < (number + 1) * rate:
                samples.append(round(LOUDNESS * math.sin(phase)))
                phase = (phase + step) % (2 * math.pi)
    samples.extend([0] * (rate // 4))
    if sys.byteorder == "big":
        samples.byteswap()
    return samples.tobytes()


def save_wav(path, samples, rate):
    with wave.open(path, "wb") as out:
        out.setnchannels(1)
        out.setsampwidth(2)
        out.setframerate(rate)
        out.writeframes(samples)


# The others

def said_by(command):
    done = subprocess.run(command, capture_output=True, timeout=300)
    return done.stdout.decode("latin-1") + done.stderr.decode("latin-1")


def by_direwolf(folder, bursts):
    path = os.path.join(folder, "bursts.wav")
    save_wav(path, sound(bursts, 48_000), 48_000)
    return said_by(["atest", "-B", "1200", path])


def by_multimon(folder, bursts):
    path = os.path.join(folder, "bursts.raw")
    with open(path, "wb") as out:
        out.write(sound(bursts, 22_050))
    return said_by(["multimon-ng", "-q", "-a", "AFSK1200", "-t", "raw", path])


def main():
    parser = argparse.ArgumentParser()
    parser.add_argument("program", help="path of owac")
    parser.add_argument("--seed", type=int, default=1)
    parser.add_argument("--cases", type=int, default=20, help="number of frames")
    parser.add_argument("--show", action="store_true", help="print what the programs say")
    chosen = parser.parse_args()
    rng = random.Random(chosen.seed)
    texts = [random_text(rng) for _ in range(chosen.cases)]
    bursts = list(written(chosen.program, [ui_frame("OWAC", "STUDIO", text) for text in texts]))
    passed = 0
    with tempfile.TemporaryDirectory() as folder:
        for name, hearing in (("direwolf", by_direwolf), ("multimon-ng", by_multimon)):
            said = hearing(folder, bursts)
            if chosen.show:
                print(said)
            heard = sum(text in said for text in texts)
            print(f"{name} heard {heard} of {len(texts)}")
            passed += heard
    failed = 2 * len(texts) - passed
    print(f"{passed} passed, {failed} failed")
    sys.exit(1 if failed else 0)


if __name__ == "__main__":
    main()
