#!/usr/bin/env python3
"""Brings this repository's own definitions and lemmas to the spelling of today's Rattle: facts in camel case, other
definitions in snake case, and in a lemma's name a dash only between two names.

usage: python3 tools/respell.py [FOLDER]      at the top of a checkout, once, after the kit's port.py

It rewrites whole names in specs/ and proofs/, and in the clauses and ghost lines of src/. Functions, strings, comments of
src/, inputs and outputs stay as they are.
"""
import pathlib
import re
import sys

NAMES = {
    'All-yes': 'AllYes',
    'Depth-law': 'DepthLaw',
    'Frame-law': 'FrameLaw',
    'Keeps-calls': 'KeepsCalls',
    'Known-call': 'KnownCall',
    'Primed-by-the-row-before': 'PrimedByTheRowBefore',
    'address-left': 'address_left',
    'address-of': 'address_of',
    'address-taken': 'address_taken',
    'all-borne-out': 'all_borne_out',
    'all-digests': 'all_digests',
    'all-stop': 'all_stop',
    'along-bad': 'along_bad',
    'along-no': 'along_no',
    'along-none': 'along_none',
    'along-turn': 'along_turn',
    'along-yes': 'along_yes',
    'answered-yes': 'answered_yes',
    'any-pass': 'any_pass',
    'any-unsure': 'any_unsure',
    'area-fits': 'area_fits',
    'as-on': 'as_on',
    'as-reverse': 'as_reverse',
    'between-cut': 'between_cut',
    'between-decides': 'between_decides',
    'between-no': 'between_no',
    'between-same': 'between_same',
    'between-yes': 'between_yes',
    'borne-out': 'borne_out',
    'by-flow': 'by_flow',
    'by-instruction': 'by_instruction',
    'call-in': 'call_in',
    'call-of': 'call_of',
    'calls-law': 'calls_law',
    'calls-of': 'calls_of',
    'cells-meaning': 'cells_meaning',
    'claim-at': 'claim_at',
    'comes-to': 'comes_to',
    'cons-on': 'cons_on',
    'digest-of': 'digest_of',
    'digests-length': 'digests_length',
    'digests-of': 'digests_of',
    'each-no': 'each_no',
    'each-yes': 'each_yes',
    'eight-places': 'eight_places',
    'ends-wraps': 'ends_wraps',
    'enough-returns': 'enough_returns',
    'entry-end': 'entry_end',
    'entry-hit': 'entry_hit',
    'entry-miss': 'entry_miss',
    'every-no': 'every_no',
    'few-parameters': 'few_parameters',
    'filling-end': 'filling_end',
    'first-no': 'first_no',
    'first-no-++': 'first_no-++',
    'flow-asks': 'flow_asks',
    'flow-wraps': 'flow_wraps',
    'found-has': 'found_has',
    'found-row': 'found_row',
    'from-to': 'from_to',
    'goes-on-to': 'goes_on_to',
    'ground-of': 'ground_of',
    'grow-on': 'grow_on',
    'head-asks': 'head_asks',
    'held-readable': 'held_readable',
    'in-turn': 'in_turn',
    'in?': 'is_in',
    'index-absent': 'index_absent',
    'index-here': 'index_here',
    'indexed-covers': 'indexed_covers',
    'instruction-asks': 'instruction_asks',
    'instruction-at': 'instruction_at',
    'instruction-leads': 'instruction_leads',
    'is-origin': 'is_origin',
    'item-nth': 'item_nth',
    'its-fill': 'its_fill',
    'its-first': 'its_first',
    'its-last': 'its_last',
    'its-page': 'its_page',
    'its-returns': 'its_returns',
    'its-stack': 'its_stack',
    'keeps-calls': 'keeps_calls',
    'known-there': 'known_there',
    'latest-of': 'latest_of',
    'leaves-results': 'leaves_results',
    'limits-fit': 'limits_fit',
    'links-none': 'links_none',
    'links-stop': 'links_stop',
    'listed-with': 'listed_with',
    'looked-at': 'looked_at',
    'looked-up': 'looked_up',
    'low-here': 'low_here',
    'low-limits': 'low_limits',
    'lower-allowed': 'lower_allowed',
    'lower-spans': 'lower_spans',
    'no-some': 'no_some',
    'none-lost': 'none_lost',
    'none-own': 'none_own',
    'not-refused': 'not_refused',
    'noted-full': 'noted_full',
    'noted-there': 'noted_there',
    'offset-key': 'offset_key',
    'on-return-stack': 'on_return_stack',
    'only-from': 'only_from',
    'operand-byte': 'operand_byte',
    'operand-of': 'operand_of',
    'operand-size': 'operand_size',
    'operand-word': 'operand_word',
    'or-again': 'or_again',
    'or-first': 'or_first',
    'or-second': 'or_second',
    'or-three': 'or_three',
    'or-true': 'or_true',
    'or-zero': 'or_zero',
    'out-list': 'out_list',
    'own-gives': 'own_gives',
    'own-takes': 'own_takes',
    'owns-ends': 'owns_ends',
    'page-fits': 'page_fits',
    'pointers-after': 'pointers_after',
    'ports-fit': 'ports_fit',
    'ports-meaning': 'ports_meaning',
    'primed-law': 'primed_law',
    'pushed-word': 'pushed_word',
    'reaches?': 'reaches_enough',
    'read-readable': 'read_readable',
    'read-row': 'read_row',
    'read-window': 'read_window',
    'read-writable': 'read_writable',
    'record-at': 'record_at',
    'record-count': 'record_count',
    'returns-after': 'returns_after',
    'rising-end': 'rising_end',
    'rising-here': 'rising_here',
    'rising-turn': 'rising_turn',
    'routine-from': 'routine_from',
    'routine-of': 'routine_of',
    'row-asks': 'row_asks',
    'rows-asked': 'rows_asked',
    'same-cells': 'same_cells',
    'settings-asks': 'settings_asks',
    'sheet-in': 'sheet_in',
    'sheet-of': 'sheet_of',
    'sized-as': 'sized_as',
    'split-meaning': 'split_meaning',
    'stack-asks': 'stack_asks',
    'stands-inside': 'stands_inside',
    'starts-well': 'starts_well',
    'step-asks': 'step_asks',
    'step-at': 'step_at',
    'then-first': 'then_first',
    'told-by-entry': 'told_by_entry',
    'tracks-here': 'tracks_here',
    'true-every': 'true_every',
    'turns?': 'turns_enough',
    'upper-allowed': 'upper_allowed',
    'upper-spans': 'upper_spans',
    'verdict-of': 'verdict_of',
    'whole-records': 'whole_records',
    'window-asks': 'window_asks',
    'windows-asked': 'windows_asked',
    'with-carry': 'with_carry',
    'with-family': 'with_family',
    'with-latest': 'with_latest',
    'with-lower': 'with_lower',
    'with-next': 'with_next',
    'with-operand': 'with_operand',
    'with-pointers': 'with_pointers',
    'with-registers': 'with_registers',
    'with-returns': 'with_returns',
    'with-stack': 'with_stack',
    'with-upper': 'with_upper',
    'within-returns': 'within_returns',
    'without-le': 'without_le',
    'without-lt': 'without_lt',
    'word-from': 'word_from',
    'write-held': 'write_held',
    'write-readable': 'write_readable',
    'write-sets': 'write_sets',
    'write-writable': 'write_writable',
    'yes-then': 'yes_then',
}

NAME = "A-Za-z0-9_'?!+-"
WORD = re.compile(
    "(?<![" + NAME + "])(" + "|".join(re.escape(n) for n in sorted(NAMES, key=len, reverse=True)) + ")(?![" + NAME + "])"
)
CLAUSE = re.compile(r"\b(ghost|requires|ensures)\b")


def respelled(line):
    return WORD.sub(lambda m: NAMES[m.group(1)], line)


def proof(text):
    """A file of specs/ or proofs/: every line but comments."""
    return "\n".join(l if l.lstrip().startswith("--") else respelled(l) for l in text.split("\n"))


def source(text):
    """A file of src/: the lines of a clause or a ghost item, up to the line where its brackets close."""
    lines = []
    depth = 0
    for line in text.split("\n"):
        code = line.split("//")[0]
        if depth > 0 or CLAUSE.search(code):
            line = respelled(code) + line[len(code):]
            depth = max(0, depth + code.count("{") + code.count("(") - code.count("}") - code.count(")"))
            if code.rstrip().endswith(";"):
                depth = 0
        lines.append(line)
    return "\n".join(lines)


def main():
    top = pathlib.Path(sys.argv[1] if len(sys.argv) > 1 else ".")
    for path in sorted(top.glob("crates/*/**/*")):
        if "out" in path.parts or not path.is_file():
            continue
        turn = {".antt": proof, ".rt": source}.get(path.suffix)
        if turn is None:
            continue
        old = path.read_text()
        new = turn(old)
        if new != old:
            path.write_text(new)


main()
