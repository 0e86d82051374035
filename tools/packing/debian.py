"""A package of Debian, by dpkg-deb(1)."""
import email.utils
import gzip
import hashlib
import os
import re
import subprocess
import textwrap

from .files import File

AFTER_INSTALL = """\
#!/bin/sh
# What runs is started again with the new program. It isn't started at first: its network is an example.
set -e
if [ "$1" = configure ]; then
    for unit in pced.service pced-network.timer; do
        deb-systemd-helper unmask "$unit" > /dev/null || true
        deb-systemd-helper update-state "$unit" > /dev/null || true
    done
    if [ -d /run/systemd/system ]; then
        systemctl --system daemon-reload > /dev/null || true
        [ -z "$2" ] || deb-systemd-invoke try-restart pced.service pced-network.timer > /dev/null || true
    fi
fi
"""
BEFORE_REMOVAL = """\
#!/bin/sh
set -e
if [ "$1" = remove ] && [ -d /run/systemd/system ]; then
    deb-systemd-invoke stop pced-network.timer pced-network.service pced.service > /dev/null || true
fi
"""
AFTER_REMOVAL = """\
#!/bin/sh
set -e
if [ "$1" = remove ] && [ -d /run/systemd/system ]; then
    systemctl --system daemon-reload > /dev/null || true
fi
if [ "$1" = purge ]; then
    rm -rf /var/lib/pced /var/lib/private/pced # the journals: the first is a link to the second (StateDirectory, DynamicUser)
    if command -v deb-systemd-helper > /dev/null; then
        deb-systemd-helper purge pced.service pced-network.timer > /dev/null || true
    fi
fi
"""
SUMMARY = "stateful path computation element for MPLS-TE"
DESCRIPTION = """\
pced serves routers by PCEP (RFC 5440, 8231, 8281). It keeps a book of what every link can still carry at each of eight priorities, \
and computes, grants, initiates, updates and removes the paths of LSPs.
"""
LICENCE = """\
 On Debian systems the text of the Apache License 2.0 is in
 /usr/share/common-licenses/Apache-2.0.
"""


def zipped(text):
    """A text as gzip writes it without a name and a time."""
    return gzip.compress(text, 9, mtime=0)


def changelog(text, maintainer, seconds):
    """The changes of each version as Debian writes them, all of the day of this release."""
    made, moment = [], email.utils.formatdate(seconds)
    for version, changes in re.findall(r"^## (\S+)\n(.*?)(?=^## |\Z)", text, re.M | re.S):
        rows = re.findall(r"^- (.*?)(?=^- |^#|^$|\Z)", changes, re.M | re.S)
        lines = [textwrap.fill(" ".join(row.split()), 78, initial_indent="  * ", subsequent_indent="    ") for row in rows]
        made.append(f"pced ({version}) unstable; urgency=medium\n\n" + "\n".join(lines) + f"\n\n -- {maintainer}  {moment}\n")
    return "\n".join(made).encode()


def copyright_of(maintainer, libraries):
    """Who may do what with the program, and with the libraries in it: names with their licences."""
    made = ["Format: https://www.debian.org/doc/packaging-manuals/copyright-format/1.0/\nUpstream-Name: pced\n",
            f"Files: *\nCopyright: {maintainer}\nComment: SPDX-License-Identifier: Apache-2.0\nLicense: Apache-2.0\n{LICENCE}"]
    for names, text in libraries:
        indented = "".join(f" {line}\n" if line.strip() else " .\n" for line in text.splitlines())
        made.append(f"Files: {' '.join(names)}\nCopyright: as the licence says\n"
                    f"Comment: these libraries are in the program.\nLicense: {names[0]}-licence\n{indented}")
    return "\n".join(made).encode()


def control(version, maintainer, glibc, size):
    body = "".join(f" {line}\n" for line in textwrap.wrap(DESCRIPTION, 78))
    return (f"Package: pced\nVersion: {version}\nArchitecture: amd64\nMaintainer: {maintainer}\nInstalled-Size: {size}\n"
            f"Depends: libc6 (>= {glibc})\nSuggests: frr, python3 (>= 3.11)\nSection: net\nPriority: optional\nDescription: {SUMMARY}\n{body}")


def control_files(files, conffiles, version, maintainer, glibc):
    """The files of DEBIAN, by name."""
    size = sum(-(-len(file.content) // 1024) for file in files.values())
    sums = "".join(f"{hashlib.md5(file.content).hexdigest()}  {path.lstrip('/')}\n" for path, file in sorted(files.items())
                   if path not in conffiles)
    return {"control": File(control(version, maintainer, glibc, size).encode()), "md5sums": File(sums.encode()),
            "conffiles": File("".join(f"{path}\n" for path in conffiles).encode()),
            "postinst": File(AFTER_INSTALL.encode(), 0o755), "prerm": File(BEFORE_REMOVAL.encode(), 0o755),
            "postrm": File(AFTER_REMOVAL.encode(), 0o755)}


def build(tree, made, seconds):
    """Makes the package of a tree."""
    subprocess.run(["dpkg-deb", "--root-owner-group", "--threads-max=1", "-Zxz", "--build", tree, made], check=True, capture_output=True,
                   text=True, env=os.environ | {"SOURCE_DATE_EPOCH": str(seconds)})
