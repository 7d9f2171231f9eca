"""Prints what makes the sums of IPFIX Files wrong.

The Files of an exporter are looked at together, in the order of the times at which their messages were exported. It
prints what is found of each, in lines that begin with `warning` if it may be meant, and otherwise with `wrong`:

- skipped sets, by the ID of the set and the observation domain, and why they have no template;
- records that were lost in transit, or with a File, by the sequence numbers of the messages (RFC 7011, section 3.1) in
  each domain: how many, before which messages, and where the numbers begin again. Ways of counting that differ from RFC
  7011 are recognised by most messages (docs/FORMATS.md);
- sessions that begin later or end earlier than others beside them, by more than their longest pause;
- messages that came twice, in a File or in two of them, or late;
- templates that get other fields without a withdrawal, as those of several exporters in one File and domain do;
- templates without addresses, whose records have no rows, and templates without packets or bytes, with their elements;
- templates with reverse bytes and no reverse packets, or with totals since a flow began (elements 85 and 86);
- sampled packets (elements 34, 50, 305, 306, 309 and 310), since sums are not scaled;
- flows that were seen both when they came and when they left (element 61, flowDirection), by the first 65,536 flows;
- rows with 0 bytes, Files without messages or without flow records;
- with an IPv4 map or list, records without a label.

The last line of each File has its counts. If records are perhaps missing, their number is `unknown`. The status is 1 if
sums are certainly wrong, and flowlabel-bill would print none. If a File is refused, a line says what the file is by its
first bytes, or the cause, and the cure. So is a File with more than 20,000 domains, templates and IDs of skipped sets.

FOLDERs are read as flowlabel-bill reads them. Anything else in a FOLDER ends it with status 1.
"""

from flowlabel import audit, command_line, files, process, programs

PARSER = command_line.Parser("flowlabel-audit [OPTION..] FILE|FOLDER..", page=__doc__)
files.add_options(PARSER)
command_line.add_passed(PARSER, "pmap", "list")


def main(words: list[str]) -> int:
    options = PARSER.parse_args(words)
    # Nothing begins without the program.
    programs.find("flowlabel-many")
    found = audit.Audit(files.files_of(options))
    if labels := command_line.passed(options, "pmap", "list"):
        found.look_up(labels)
    for number, file in enumerate(found.files):
        for kind, text in (rest for its, *rest in found.found if its == number):
            process.say(f"{'wrong' if kind else 'warning'}: {process.shown(f'{file}: {text}')}")
        process.say(f"{process.shown(file)}: {found.summary(number)}")
    return int(bool(found.refused(())))
