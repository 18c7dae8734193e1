#!/usr/bin/env python3
"""Brings the repository's own definitions and lemmas to today's spelling: words in snake case, types and facts in camel case.

usage: tools/spell_names.py [--list]        at the top of the repository, once, after port.py
       --list prints 'OLD NEW' for each name and changes nothing

A name is turned where it is defined in specs/ or proofs/ of a crate: a definition, a lemma, a field, a constructor. A dash stays where
it joins two names (`value-num`, for both are definitions; `abs-*`), and where the underscore would make two names of one file fall
together; elsewhere it becomes an underscore. Names of Rattle source, of the library and of what Rattle makes keep their spelling, and so
do strings, inputs and outputs. Afterwards the same names are turned in docs/, README.md, tests/ and in the must-fail edits.
"""

import collections
import glob
import os
import re
import sys

# a token of antt; a path M.N.x is several tokens
NAME = r"[^\s(){}\[\]⟦⟧.,;:\"λ∥⌜⌝«»∵$!@`]+"
TOKEN = re.compile(NAME)
HEAD = re.compile(r"^(\s*)((?:(?:abbrev|unfoldable|pub|opaque)\s+)*)(" + NAME + r")\s*:\s")
GROUP = re.compile(r"^\s*(?:(?:abbrev|unfoldable|pub|opaque)\s+)*(?:data|record|ruleset)\s+(?:pub\s+)?(" + NAME + r")")
USE = re.compile(r"^\s*(?:pub\s+|ghost\s+)?use\s+([^\s;]+?)\.\{([^}]*)\}", re.M)
OURS = re.compile(r"Rattle\.(?!std\b|core\b|std_)")
SYMBOL = re.compile(r"[^A-Za-z0-9_'\-₀-₉ₐ-ₜ⁻℀-⅏ℤℕ]")
# what port.py itself turned of the repository's own names: pages and edits say them too
PORTED = dict(
    pair.split("=")
    for pair in """
        T-not=T_not _⇒_=◌⇒◌ _≔_=◌≔◌ _⊕_=◌⊕◌ _⊖_=◌⊖◌ _⊗_=◌⊗◌ _▹_=◌▹◌ above-odd=above_odd added-more=added_more all-sound=all_sound and-T=and_T
        and-l=and_l and-r=and_r answers-agree=answers_agree as-long=as_long as-many=as_many at-first=at_first at-least=at_least at-more=at_more
        at-none=at_none at-p=at_p at-second=at_second at-small=at_small back-to=back_to before-of=before_of below-all=below_all bitAt=bit_at
        bitOf=bit_of bits-of=bits_of bitsAt=bits_at bitsOf=bits_of by-first=by_first byte-of=byte_of bytesOf=bytes_of carried-none=carried_none
        carried-on=carried_on cells-of=cells_of clean-step=clean_step cond-ind=cond_ind count-low=count_low countOf=count_of counted-is=counted_is
        diff-is=diff_is differ-back=differ_back digits-append=digits_append digits-are=digits_are digits-lt=digits_lt digits-more=digits_more
        digits-same=digits_same div-parts=div_parts each-from=each_from each-step=each_step end-none=end_none ends-next=ends_next entryOf=entry_of
        eq-of=eq_of fit-of=fit_of fit-small=fit_small fits-more=fits_more formOf=form_of found-first=found_first found-within=found_within
        given-holds=given_holds given-inside=given_inside gives-back=gives_back half-down=half_down half-up=half_up held-of=held_of in-block=in_block
        in-f=in_f in-g=in_g in-order=in_order is-at=is_at isOrder=is_order isStore=is_store keyOf=key_of le-of=le_of le-to′=le-to'
        learns-none=learns_none length-digits=length_digits length-most=length_most line-of=line_of lineOf=line_of lists-at=lists_at
        lists-back=lists_back load-is=load_is low-bit=low_bit low-bits=low_bits low-digit=low_digit lowered-none=lowered_none lt-of=lt_of
        lt-to′=lt-to' moved-none=moved_none namedBy=named_by new-is=new_is next-low=next_low nextOf=next_of no-record=no_record no-room=no_room
        no-sign=no_sign no-store=no_store none-at-all=none_at_all none-end=none_end none-yet=none_yet not-sound=not_sound numOf=num_of
        number-is=number_is number-of=number_of numberOf=number_of odd-is=odd_is odd-step=odd_step off-zero=off_zero one-more=one_more
        one-shifted=one_shifted ones-bit=ones_bit p-back=p_back pAt=p_at part-same=part_same partAt=part_at partOf=part_of past-end=past_end
        past-is=past_is past-of=past_of pick-true=pick_true pickN=pick_n piece-then=piece_then place-at=place_at place-in=place_in place-is=place_is
        place-kept=place_kept place-of=place_of placeOf=place_of pow-below=pow_below q-back=q_back readPlace=read_place reads-same=reads_same
        refusal-is=refusal_is rest-of=rest_of restOf=rest_of room-after=room_after runs-same=runs_same same-after=same_after same-answer=same_answer
        same-byte=same_byte same-full=same_full same-length=same_length same-lists=same_lists same-or-not=same_or_not same-start=same_start
        seek-hit=seek_hit shift-back=shift_back sign-of=sign_of signOf=sign_of signed-above=signed_above signed-below=signed_below signedOf=signed_of
        size-32=size_32 size-above=size_above size-below=size_below some-end=some_end sound-none=sound_none start-is=start_is starts-from=starts_from
        step-is=step_is step-of=step_of store-is=store_is store-long=store_long sum-is=sum_is sum-step=sum_step sumOf=sum_of take-below=take_below
        take-count=take_count take-next=take_next take-own=take_own take-same=take_same takeOf=take_of too-few=too_few too-large=too_large
        top-bit=top_bit top-digit=top_digit two-back=two_back up-neg=up_neg upTo=up_to value-grows=value_grows value-none=value_none value-of=value_of
        valueOf=value_of walk-loop=walk_loop walk-more=walk_more walk-of=walk_of whole-unique=whole_unique wide-enough=wide_enough
        window-bytes=window_bytes within-more=within_more without-more=without_more word-fits=word_fits word-piece=word_piece word-two=word_two
        wordOf=word_of writing-start=writing_start wrote-nothing=wrote_nothing wrote-then=wrote_then zero-of=zero_of
    """.split()
)
# what a page says in prose too
ENGLISH = set("lead-in by-meter bit-length".split())
# definitions whose names are plain words of English as well: in a lemma's name they are words
PLAIN = set("is by from not none one two off got only whole zero rest some first held key max min moved named brought field dist counts".split())
WORDS = {"getD": "get_or", "natAbs": "nat_abs", "bitAt": "bit_at", "bitOf": "bit_of"}


def files(kinds):
    for kind in kinds:
        yield from sorted(glob.glob(kind, recursive=True))


def antt():
    return [p for p in files(["crates/*/specs/**/*.antt", "crates/*/proofs/**/*.antt"]) if "/out/" not in p]


def code(line):
    """The line without its comment."""
    at = re.search(r"(?:^|\s)--(?:\s|$)", line)
    return line[: at.start()] if at else line


def snake(part):
    for old, new in WORDS.items():
        part = re.sub(re.escape(old) + r"(?![a-z])", new, part)
    if not part or part[0].isupper():
        return part
    return re.sub(r"(?<=[a-z0-9])([A-Z])", lambda m: "_" + m.group(1).lower(), part)


def defined():
    """name -> (the files that define it; whether a definition of specs/ or a type)"""
    where, heads = collections.defaultdict(set), set()
    for p in antt():
        goals = p.endswith("/Proof.antt")
        for line in open(p, encoding="utf-8"):
            line = code(line)
            m = GROUP.match(line)
            if m:
                where[m.group(1)].add(p)
                heads.add(m.group(1))
                continue
            m = HEAD.match(line)
            if not m or m.group(3) in ("where", "let", "in"):
                continue
            name = m.group(3)
            if goals and re.search(r":\s*(?:\(t : \w+\) → )?(?:tie\b|\w+-lts\b|goal\b|\{M : Type 1\})", line):
                continue
            where[name].add(p)
            if "/specs/" in p and not m.group(1):
                heads.add(name)
    return where, heads


def library():
    """Names that files import from the library: they keep their spelling."""
    names = set()
    for p in antt() + [q for q in files(["crates/*/src/**/*.rt"])]:
        for m in USE.finditer(open(p, encoding="utf-8").read()):
            if not OURS.match(m.group(1)):
                names.update(re.findall(NAME, m.group(2)))
    return names


def spelt(name, functions):
    """The new spelling of one name."""
    if name[0].isupper() and "-" not in name:
        return name
    parts = re.split(r"(-+)", name)
    out = parts[0] if parts[0][:1].isupper() else snake(parts[0])
    for i in range(1, len(parts), 2):
        dash, part = parts[i], snake(parts[i + 1])
        joins = SYMBOL.search(part) or SYMBOL.search(parts[i - 1]) or dash != "-" or not part or not out or (out in functions and part in functions)
        out += (dash if joins else "_") + part
    return out


def names():
    where, heads = defined()
    kept = library()
    functions = {snake(h) for h in heads if not h[0].isupper()} | {k for k in kept if "-" not in k and not k[0].isupper() and len(k) > 1}
    functions -= PLAIN
    new = {}
    for name in sorted(where):
        if name in kept or name.startswith("+") or name in ("-", "--"):
            continue
        to = spelt(name, functions)
        if to != name:
            new[name] = to
    # names of one file that would fall together, and names that are there already
    for p in antt() + files_list(["crates/*/src/**/*.rt"]):
        text = open(p, encoding="utf-8").read()
        found = set(TOKEN.findall(text))
        reached = collections.defaultdict(set)
        for t in found:
            reached[new.get(t, t)].add(t)
        for to, olds in reached.items():
            if len(olds) > 1 and not p.endswith(".rt"):
                for o in olds:
                    if o in new:
                        CLASHES.add((p, o, to))
    for _, o, _ in CLASHES:
        if "-" in o:
            again = "-".join(snake(x) if x[:1].islower() else x for x in o.split("-"))
            if again == o:
                new.pop(o, None)
            else:
                new[o] = again
    return new


CLASHES = set()


def files_list(kinds):
    return list(files(kinds))


def turn(text, new):
    return TOKEN.sub(lambda m: new.get(m.group(0), m.group(0)), text)


def turn_comment(text, new):
    """In prose a name is turned where it cannot be a word of English: in backticks, in camel case, or as the head of a glossary's line."""
    new = {o: t for o, t in {**PORTED, **new}.items() if o not in ENGLISH}
    text = re.sub(r"`[^`]*`", lambda m: turn(m.group(0), new), text)
    text = re.sub(r"(?<![\w-])[a-z]+[A-Z]\w*(?![\w-])", lambda m: new.get(m.group(0), m.group(0)), text)
    m = re.match(r"(\s*--\s{2,})(\S.*?)(\s{2,}.*|\s*)$", text)
    if m:
        text = m.group(1) + turn(m.group(2), new) + m.group(3)
    return text


def turn_antt(text, new):
    out = []
    for line in text.split("\n"):
        c = code(line)
        out.append(turn(c, new) + turn_comment(line[len(c):], new))
    return "\n".join(out)


def turn_rt(text, new):
    """Clauses, `ghost use` lines and comments; never strings. Rust's own names have no dash and no camel case."""
    out = []
    for line in text.split("\n"):
        at = re.search(r"(?:^|\s)//", line)
        head, tail = (line[: at.start()], line[at.start():]) if at and '"' not in line[: at.start()] else (line, "")
        if re.search(r"ghost use|requires|ensures|≡|×|λ|→|measures", head):
            head = turn(head, new)
        else:
            head = re.sub(r'"(?:[^"\\]|\\.)*"|[a-z]+[A-Z]\w*', lambda m: m.group(0) if m.group(0)[0] == '"' else new.get(m.group(0), m.group(0)), head)
        out.append(head + turn_comment(tail, new))
    return "\n".join(out)


def turn_page(text, new):
    """A page: quotations of antt, and words in backticks."""
    out, quoted = [], False
    for line in text.split("\n"):
        quoted = line.startswith("    ") and (quoted or bool(re.match(r"    -- \S+\.antt$", line)))
        if quoted:
            line = turn(line, new)
        elif not line.startswith("    "):
            line = re.sub(r"`[^`]*`", lambda m: turn(m.group(0), new), line)
        out.append(line)
    return "\n".join(out)


def main():
    os.chdir(os.path.join(os.path.dirname(os.path.abspath(__file__)), ".."))
    new = names()
    if "--list" in sys.argv:
        for o in sorted(new):
            print(o, new[o])
        for p, o, to in sorted(CLASHES):
            print("falls together:", p, o, to, file=sys.stderr)
        return
    for kinds, how in (
        (["crates/*/specs/**/*.antt", "crates/*/proofs/**/*.antt"], turn_antt),
        (["crates/*/src/**/*.rt"], turn_rt),
        (["crates/*/must-fail/*.edit"], lambda text, new: turn(text, {**PORTED, **new})),
        (["README.md", "docs/**/*.md"], lambda text, new: turn_page(text, {**PORTED, **new})),
    ):
        for p in files(kinds):
            if "/out/" in p:
                continue
            text = open(p, encoding="utf-8").read()
            to = how(text, new)
            if to != text:
                open(p, "w", encoding="utf-8").write(to)


main()
