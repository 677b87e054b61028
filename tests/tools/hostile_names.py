#!/usr/bin/env python3
"""Writes a record, a DAG file and its component files whose names could mean something to a page.

    hostile_names.py FOLDER

makes FOLDER/names.rec, names.dag and some .conf: tags, quotes, a new line, marks that turn the direction of text, a line separator.
"""
import os
import sys

sys.path.insert(0, os.path.join(os.path.dirname(os.path.abspath(__file__)), "..", "..", "tools"))
from record import content_of, record

TAG = '</script><script>window.hacked = 1</script>'
READ = [TAG, 'a "quoted" & <b>bold</b>\nname', "right\u202eleft\u2028{{ 7 * 7 }}"]
WRITTEN = ["<img src=x onerror='window.hacked = 1'>", "\\n]]>", "--><svg onload=alert(1)>"]
NAMES = ['</title><script>window.hacked = 1</script>', "</style>'\"`${1}", "\u2029<!--"]


def quoted(text):
    """A string of the text form."""
    return '"' + text.replace("\\", "\\\\").replace('"', '\\"').replace("\n", "\\n") + '"'


def main():
    os.chdir(sys.argv[1])
    parts = []
    for number, (name, channel, out) in enumerate(zip(NAMES, READ, WRITTEN)):
        with open(f"{number}.conf", "w", encoding="utf-8") as file:
            file.write(f"out: {quoted(out)}\nout_type: {quoted(TAG)}\n")
        parts.append(
            f'components {{ class_name: "PassComponent" config {{ name: {quoted(name)} config_file_path: "{number}.conf"'
            f" readers {{ channel: {quoted(channel)} }} }} }}\n"
        )
    with open("names.dag", "w", encoding="utf-8") as file:
        file.write(f'module_config {{ module_library: "x"\n{"".join(parts)}}}\n')
    forms = {channel.encode(): (TAG.encode(), b"") for channel in READ}
    with open("names.rec", "wb") as file:
        file.write(record([(READ[k % 3].encode(), 10 * k, content_of(k)) for k in range(1, 31)], forms))


main()
