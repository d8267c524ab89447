#!/usr/bin/env python3
"""Spells this repository's own definitions, lemmas, fields and constructors in snake case, as today's Rattle does.

usage: respell.py [--check]     at the top of the repository, once, right after the kit's port.py

A name that a file of specs/ or proofs/ declares, as handleMessage or its-own-story, becomes handle_message and
its_own_story: in specs/ and proofs/, in the clauses and ghost imports of src/, in the must-fail edits, and in the
code spans of the pages. Types and modules keep their camel case, functions of src/ keep their names.
INSTEAD has the names whose plain new spelling would fall together with another name.
--check writes nothing and prints each name that falls together with another.
"""
import collections
import glob
import re
import sys

WORD = re.compile(r'[^\s(){}.;,@"«»]+')
QUIET = re.compile(r'"(?:[^"\\\n]|\\.)*"|(?<![^\s(){}.;,@"«»])--[^\n]*|\{-.*?-\}', re.S)
DECLARED = re.compile(r"(?m)^ *(?:(?:abbrev|pub|unfoldable|record|data) )*([^\s(){}.;,@\"«»:]+)(?: \{[^{}\n]*\}| \([^()\n]*\))* :(?= )")
CLAUSE = re.compile(r"(?:requires|ensures)\s*\*?\s*(?:\w+\s*)?\{|ghost\s*(?:\w+\s*(?::|=)\s*)?\{")
GHOST_USE = re.compile(r"ghost\s+use\b[^;]*;")

# old: new, where the plain spelling is taken: by a definition (its lemma gets _lem), or by a field of src/.
INSTEAD = {
    "app-fits": "app_fits_lem",
    "bare-call": "bare_call_lem",
    "connect-accepted": "connect_accepted_lem",
    "encoder-text": "encoder_text_lem",
    "found-request": "found_request_lem",
    "found-stream": "found_stream_lem",
    "media-answer": "media_answer_lem",
    "media-sent": "media_sent_lem",
    "metadata-sent": "metadata_sent_lem",
    "no-connect": "no_connect_lem",
    "on-stream": "on_stream_lem",
    "own-stream": "own_stream_lem",
    "plain-found": "plain_found_lem",
    "property-at": "property_at_lem",
    "publish-on": "publish_on_lem",
    "request-number": "request_number_lem",
    "same-order": "same_order_lem",
    "same-steps": "same_steps_lem",
    "shown-as": "shown_as_lem",
    "stream-number": "stream_number_lem",
    "stream-of": "stream_of_lem",
    "is-nan": "is_nan_lem",
    "audio-bitrate-kbps": "audio_bitrate_kbps_fits",
    "audio-channels": "audio_channels_fits",
    "audio-codec-id": "audio_codec_id_fits",
    "audio-sample-rate": "audio_sample_rate_fits",
    "video-bitrate-kbps": "video_bitrate_kbps_fits",
    "video-codec-id": "video_codec_id_fits",
    "video-height": "video_height_fits",
    "video-width": "video_width_fits",
    "next-request": "next_request_fits",
    "next-stream": "next_stream_fits",
    "request-count": "request_count_fits",
    "stream-count": "stream_count_fits",
    "request-places": "request_places_lem",
    "stream-places": "stream_places_lem",
    "nextRequest": "following_request",
    "nextStream": "following_stream",
    "chunkSize": "chunk_size_record",
    "peerBandwidth": "peer_bandwidth_record",
    "windowSize": "window_size_record",
}

# Names that port.py has spelled anew in specs/ and proofs/, and not in the edits and pages.
ALSO = """
after-same all-append all-closed all-drop all-remove all-set all-take and-left and-no and-right and-then
answerOf at-most at-name bits-are by-count by-end by-kind by-last by-size by-state byte-next bytes-on bytes-
read bytesOf callOf callsOf close-spec count-at count-fits count-left count-room count-small cut-at cut-field
cut-in cut-out depthOf digits-lt end-none entry-at equal-is equals-itself factsOf fault-past field-back field-
is field-lt field-room fieldAt fill-done fill-spec fill-step find-none finish-spec flag-small found-in found-
none found-number frame-off frameOf given-below half-step has-here has-no has-room held-kept held-start
imageOf in-body in-order is-finite joined-at joined-length keep-spec kept-new kept-put kept-same kept-step
keptAt keys-kept keys-length keysOf kindOf last-end last-set last-step lastF lastOf length-at length-front
length-over length-removed lengthOf linked-on look-at look-none made-other mag-is mode-small modeOf nameAt
nameOf namedBy no-chunk no-nan no-room no-rows none-is none-made not-none number-read numberIn numberOf on-
alike on-none on-some one-less one-set one-shifted onto-same open-is opens-not or-nothing orElse over-zero
pairs-end part-at part-in part-length past-end pick-same pieces-room place-end place-here placeIn placeOf pow-
lt-back put-as put-byte put-in put-spec put-then putAll read-again read-back read-fits read-is read-none read-
step record-is rest-at rest-lt room-open room-says roomAt row-step rows-back rows-end rows-start run-none run-
past run-value same-count same-differs same-end same-kept same-length same-not same-or same-refl same-step
set-agrees set-at set-other set-same setFlags size-exact spread-same start-is start-spec startIn startOf
stateOf step-is take-in text-in there-and-back they-differ tidy-of too-many too-short ts-length turn-is turnOf
two-runs valueOf whole-above whole-back whole-below whole-by whole-length wholeOf width-is word-end wordOf
written-bare written-stands
""".split()

# Commands of RTMP, which a comment or a page may mean.
COMMANDS = ("createStream", "closeStream", "deleteStream")


def snake(name):
    name = re.sub(r"(?<=[a-z0-9])([A-Z])", lambda m: "_" + m[1].lower(), name)
    return name.replace("-", "_")


def antt_files():
    files = glob.glob("crates/*/specs/**/*.antt", recursive=True) + glob.glob("crates/*/proofs/**/*.antt", recursive=True)
    return sorted(files)


def is_walk(path):
    return path.endswith("/Proof.antt")


def own_names():
    """Each name that a file of specs/ or a file of laws declares, and whose spelling is to change, with the files."""
    found = collections.defaultdict(set)
    for path in antt_files():
        if is_walk(path):
            continue
        with open(path, encoding="utf-8") as it:
            text = QUIET.sub("", it.read())
        for m in DECLARED.finditer(text):
            name = m[1]
            if re.match(r"[a-z]", name) and re.search(r"[A-Z-]", name) and "μ" not in name:
                found[name].add(path)
    return found


def turn_code(text, table):
    """antt text: each word that is a name of the table, but in comments and strings."""
    def words(piece):
        return WORD.sub(lambda m: table.get(m[0], m[0]), piece)

    out, at = [], 0
    for m in QUIET.finditer(text):
        out += [words(text[at:m.start()]), spans(m[0], table, camel=True)]
        at = m.end()
    return "".join(out + [words(text[at:])])


def spans(text, table, camel=False):
    """A comment or a page: the code spans, and with camel each bare word in camel case."""
    def inside(m):
        # Not in a string.
        return "`" + re.sub(r'"[^"]*"|' + WORD.pattern, lambda w: table.get(w[0], w[0]), m[0][1:-1]) + "`"

    text = re.sub(r"`[^`\n]+`", inside, text)
    if camel:
        keeps = lambda name: name if name in COMMANDS else table.get(name, name)
        text = re.sub(r"\b[a-z]+[0-9]*[A-Z]\w*\b", lambda m: keeps(m[0]), text)
    return text


def page(text, table):
    """A page: its code spans, its indented clauses, and the names that lead to a file, as in [name](file)."""
    text = spans(text, table)
    text = re.sub(r"\[([^\s\[\]]+)\](?=\()", lambda m: "[" + table.get(m[1], m[1]) + "]", text)
    return re.sub(r"(?m)^ {4}.*(?:requires|ensures).*$", lambda m: turn_code(m[0], table), text)


def closing(text, at):
    depth = 0
    for i in range(at, len(text)):
        depth += {"{": 1, "}": -1}.get(text[i], 0)
        if depth == 0:
            return i
    return len(text)


def turn_rt(text, table):
    """src/: the ghost imports, the clauses, and the code spans of comments."""
    text = GHOST_USE.sub(lambda m: turn_code(m[0], table), text)
    out, at = [], 0
    for m in CLAUSE.finditer(text):
        if m.start() < at:
            continue
        end = closing(text, m.end() - 1)
        out += [text[at:m.end()], turn_code(text[m.end():end], table)]
        at = end
    text = "".join(out + [text[at:]])
    return re.sub(r"//[^\n]*", lambda m: spans(m[0], table, camel=True), text)


def turn_edit(text, table):
    """The texts of an edit of specs/ or proofs/; of src/ the clauses alone."""
    if re.search(r"(?m)^file: (specs|proofs)/", text):
        return re.sub(r"(?m)^((?:old|new): )(.*)$", lambda m: m[1] + turn_code(m[2], table), text)
    return re.sub(r"(?m)^((?:old|new): )(.*)$", lambda m: m[1] + turn_rt(m[2], table), text)


def main():
    check = "--check" in sys.argv[1:]
    names = own_names()
    table = {n: INSTEAD.get(n, snake(n)) for n in names}
    table = {n: new for n, new in table.items() if n != new}
    told = {**{n: snake(n) for n in ALSO}, **table}
    faults = 0
    # A new name must not stand in a file that has the old one.
    for path in antt_files() + sorted(glob.glob("crates/*/src/*.rt")):
        with open(path, encoding="utf-8") as it:
            text = QUIET.sub("", it.read())
        if path.endswith(".rt"):
            text = "\n".join(m[0] for m in GHOST_USE.finditer(text)) + "\n".join(text[m.end():closing(text, m.end() - 1)] + re.sub(r"\w+\(", "", "") for m in CLAUSE.finditer(text))
        words = {m[0] for m in WORD.finditer(text)}
        for old in sorted(words & set(table)):
            if table[old] in words:
                faults += 1
                print(f"falls together: {old} and {table[old]} in {path}")
    back = collections.defaultdict(list)
    for old, new in table.items():
        back[new].append(old)
    for new, olds in sorted(back.items()):
        if len(olds) > 1:
            faults += 1
            print(f"falls together: {', '.join(sorted(olds))}")
    fields = set()
    for path in glob.glob("crates/*/src/*.rt"):
        with open(path, encoding="utf-8") as it:
            fields |= set(re.findall(r"(?m)^\s+(?:pub )?(\w+): ", it.read()))
    for old, new in sorted(table.items()):
        if new in fields:
            print(f"a field of src/ is so called: {old} as {new} in {sorted(names[old])[0]}")
    print(f"{len(table)} names")
    if check:
        return faults > 0
    for path in antt_files():
        change(path, lambda t: turn_code(t, table))
    for path in sorted(glob.glob("crates/*/src/*.rt")):
        change(path, lambda t: turn_rt(t, table))
    for path in sorted(glob.glob("crates/*/must-fail/*.edit")):
        change(path, lambda t: turn_edit(t, told))
    for path in ["README.md", *sorted(glob.glob("docs/*.md")), "oracle/README.md", "examples/README.md"]:
        change(path, lambda t: page(t, told))
    return faults > 0


def change(path, how):
    with open(path, encoding="utf-8") as it:
        old = it.read()
    new = how(old)
    if new != old:
        with open(path, "w", encoding="utf-8") as it:
            it.write(new)


if __name__ == "__main__":
    raise SystemExit(main())
