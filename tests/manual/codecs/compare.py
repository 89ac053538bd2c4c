#!/usr/bin/env python3
"""Compares what the program of formats.txt printed for fixtures with their expected answers.

    compare.py FIXTURES OUTPUT

FIXTURES has expected.json and hostile/hostile.json, OUTPUT is the output of `rt try --cases`. It prints each difference that EXCEPTIONS
doesn't explain, and then `N of M right`. The status is 1 if there is such a difference.
"""
import json
import sys

# differences with a reason
EXCEPTIONS = {
    "av01-main10-pq-no-colr.mp4": "colours are only in the sequence header, which isn't read",
    "avc1-sar-in-vui-only.mp4": "the aspect ratio is only in the parameter sets, which aren't read",
    "hvc1-main10-pq-no-colr.mp4": "colours are only in the parameter sets, which aren't read",
    "hvc1-rext-422-10.mp4": "without colours the range of 10 bits isn't known",
    "dvh1-05-pq.mp4": "the entry's type isn't one of those that are known",
    "mp4v-asp.mp4": "the entry's type isn't one of those that are known",
    "text-stpp-deu.mp4": "text isn't part of a master playlist",
    "text-tx3g-eng.mp4": "text isn't part of a master playlist",
    "text-wvtt-eng.mp4": "text isn't part of a master playlist",
    "mov-avc1-nclc.mp4": "the language is a Macintosh code",
    "mov-mp4a-wave.mp4": "the language is a Macintosh code",
    "mp4a-40-2-elng-pt-BR.mp4": "`elng` isn't read; `mdhd` says pt",
    "mp4a-40-2-quad-pce.mp4": "a program config element isn't read",
    "mp4a-a9-dts-51.mp4": "the channels of DTS are in a box of its own, which isn't read",
    "hostile--trun-count-0.mp4": "the first unit isn't recorded, and the second says 24.000",
    "hostile--trun-count-max.mp4": "the first unit isn't recorded, and the second says 24.000",
    "hostile--moov-size-0.mp4": "an init section ends with a box of known size",
    "hostile--colr-cut.mp4": "without colours the range of 10 bits isn't known",
}


def read_output(path):
    """The lines that were printed for each file."""
    printed, name = {}, None
    for line in open(path, encoding="utf-8", errors="replace"):
        line = line.rstrip("\n")
        if line.startswith("== "):
            name = line[3:]
            printed[name] = []
        elif line.startswith("case="):
            name = None
        elif name is not None and line:
            printed[name].append(line)
    return printed


def fields(line):
    """A printed line as attributes; None for a track that isn't understood."""
    words = line.split(" ")
    if len(words) != 7:
        return None
    codec, size, video_range, channels, language, _, rate = words
    found = {"codecs": codec, "RESOLUTION": size, "VIDEO-RANGE": video_range, "CHANNELS": channels, "LANGUAGE": language}
    if size != "-" or video_range != "-":
        found["FRAME-RATE"] = rate
    return {key: value for key, value in found.items() if value != "-"}


def expected_fields(track):
    """What expected.json says of a track."""
    wanted = {"codecs": track["codecs"]}
    if track.get("displayed"):
        wanted["RESOLUTION"] = "%dx%d" % tuple(track["displayed"])
        wanted["FRAME-RATE"] = track["frame_rate"]["decimal"]
        wanted["VIDEO-RANGE"] = track["video_range"]
    if track.get("hls_channels"):
        wanted["CHANNELS"] = str(track["hls_channels"])
    if track.get("language"):
        wanted["LANGUAGE"] = track["language"]
    return wanted


def equal(found, wanted):
    """Compares attributes; the case of hexadecimal digits doesn't matter."""
    if set(found) != set(wanted):
        return False
    return all(str(found[key]).lower() == str(wanted[key]).lower() for key in wanted)


def check_fixture(name, fixture, lines):
    """Why a fixture's lines are wrong, or None."""
    found = [fields(line) for line in lines]
    known = [one for one in found if one is not None]
    wanted = [expected_fields(track) for track in fixture["tracks"]]
    if len(known) != len(wanted) or not all(equal(a, b) for a, b in zip(known, wanted)):
        return "%s, not %s" % (lines, wanted)
    encrypted = name.startswith("enc")
    if any((" encrypted " in line) != encrypted for line in lines if fields(line)):
        return "encrypted is wrong: %s" % lines
    return None


def meets(found, expect):
    """Whether a track's attributes meet an expectation without alternatives."""
    if expect.get("refuse"):
        return found is None
    if found is None:
        return False
    codecs = [expect.get("codecs"), expect.get("alternative_codecs")]
    if expect.get("codecs") and found.get("codecs", "").lower() not in [c.lower() for c in codecs if c]:
        return False
    for key in ("CHANNELS", "RESOLUTION", "VIDEO-RANGE", "LANGUAGE", "FRAME-RATE"):
        if key in expect and found.get(key) != expect[key]:
            return False
    return not any(key in found for key in expect.get("omit", []))


def check_hostile(expect, lines):
    """Why a hostile file's lines are wrong, or None."""
    found = fields(lines[0]) if lines else None
    choices = [expect]
    alternative = expect.get("alternative")
    if alternative == "refuse":
        choices.append({"refuse": True})
    elif isinstance(alternative, dict):
        choices.append(alternative)
    elif isinstance(alternative, str) and alternative.startswith("omit"):
        choices.append({"omit": alternative.split()[1:] or ["LANGUAGE"]})
    elif isinstance(alternative, str):
        choices.append({"LANGUAGE": alternative})
    if expect.get("refuse") and expect.get("alternative_codecs"):
        choices.append({"codecs": expect["alternative_codecs"]})
    if any(meets(found, choice) for choice in choices):
        return None
    return "%s, not %s" % (lines, expect)


def main():
    folder, output = sys.argv[1:]
    printed = read_output(output)
    expected = json.load(open(folder + "/expected.json"))["fixtures"]
    hostile = json.load(open(folder + "/hostile/hostile.json"))
    faults = {name: check_fixture(name, fixture, printed.get(name, [])) for name, fixture in expected.items()}
    for name, entry in hostile.items():
        faults["hostile--" + name] = check_hostile(entry["expect"], printed.get("hostile--" + name, []))
    wrong = {name: why for name, why in faults.items() if why}
    for name, why in sorted(wrong.items()):
        print("%s: %s%s" % (name, "as expected, since " + EXCEPTIONS[name] + ": " if name in EXCEPTIONS else "", why))
    for name in sorted(set(EXCEPTIONS) - set(wrong)):
        print("%s: an exception that isn't needed" % name)
    print("%d of %d right, %d with a reason" % (len(faults) - len(wrong), len(faults), len(set(wrong) & set(EXCEPTIONS))))
    return 1 if set(wrong) - set(EXCEPTIONS) or set(EXCEPTIONS) - set(wrong) else 0


if __name__ == "__main__":
    sys.exit(main())
