#!/usr/bin/env python3
"""Makes the film of N pictures by the rule in words, and lists its packets as ffprobe prints them.

Usage: tools/generated_film.py N FILM PACKETS

It shares nothing with the program: the octets of the front stand here as they are.
"""
import sys

# an EBML header, a Segment of unknown size, Info, and Tracks with one track of video and one of audio
FRONT = bytes.fromhex(
    "1A45DFA38B4282886D6174726F736B61"
    "18538067FF"
    "1549A966872AD7B1830F4240"
    "1654AE6BA7"
    "AE91D7810173C5810183810186" "85565F565039"
    "AE92D7810273C5810283810286" "86415F4F505553"
)


def size(n):
    """A size in the fewest octets; all ones would be an unknown one."""
    width = next(w for w in range(1, 9) if n < (1 << (7 * w)) - 1)
    return ((1 << (7 * width)) | n).to_bytes(width, "big")


def uint(n):
    return n.to_bytes(max(1, (n.bit_length() + 7) // 8), "big")


def element(head, body):
    return bytes.fromhex(head) + size(len(body)) + body


def block(track, relative, key, body):
    return element("A3", bytes([0x80 | track]) + relative.to_bytes(2, "big") + bytes([0x80 if key else 0]) + body)


def shown(i):
    """Picture i and its two sounds: track, time in milliseconds, key mark, payload."""
    sound = bytes([i % 256] * 4)
    return [
        (1, 40 * i, i % 12 == 0, bytes((i + j) % 256 for j in range(8 + i % 32))),
        (2, 40 * i, True, sound),
        (2, 40 * i + 20, True, sound),
    ]


def main():
    count, film, packets = int(sys.argv[1]), sys.argv[2], sys.argv[3]
    with open(film, "wb") as out, open(packets, "w", encoding="ascii") as lines:
        out.write(FRONT)
        for first in range(0, count, 12):
            body = element("E7", uint(40 * first))
            for i in range(first, min(count, first + 12)):
                for track, time, key, payload in shown(i):
                    body += block(track, time - 40 * first, key, payload)
                    lines.write(f"{track - 1},{time / 1000:.6f},{len(payload)},{'K' if key else '_'}_\n")
            out.write(element("1F43B675", body))


if __name__ == "__main__":
    main()
