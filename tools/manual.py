#!/usr/bin/env python3
"""Prints the man page of the built program st2110, or its completions for bash, by what its --help tells.

usage: manual.py PROGRAM man|bash
"""
import re
import subprocess
import sys


class Help:
    """What --help tells: what a command is for, how it's used, and below a title, as Options, names with their texts."""

    def __init__(self, program, *command):
        text = subprocess.run([program, *command, "--help"], stdout=subprocess.PIPE, check=True, encoding="utf-8").stdout
        self.about, self.usage, self.below, entries = text.splitlines()[0], "", {}, []
        for line in text.splitlines()[1:]:
            entry = re.fullmatch(r" +(\S.*?)  +(\S.*)", line)
            if line.startswith("Usage: "):
                self.usage = line[len("Usage: ") :]
            elif entry:
                entries.append(entry.groups())
            elif re.fullmatch(r"\w+:", line):
                entries = self.below[line[:-1]] = []
            elif line:
                # (else the man page and the completions would lack what it tells)
                sys.exit(f"manual.py: the help of {' '.join(['st2110', *command])} has a line of another form: {line}")

    def values(self):
        """The values of each option that names them: those that are possible, and the fronts of jobs."""
        named = {}
        for name, text in self.below["Options"]:
            for option in re.findall(r"(?<!\S)--\w[\w-]*(?= <)", name):
                possible = re.search(r"\[possible values: (.*?)\]", text)
                if possible:
                    named[option] = possible[1].split(", ")
                elif option == "--job":
                    # (a job's numbers are the caller's)
                    jobs = re.split(r",? or |, ", re.sub(r" \(.*?\)", "", text))
                    named[option] = [re.sub(r"(:[A-Z])+$", ":", job) for job in jobs]
        return named

    def options(self):
        """The options, as they are written."""
        return [it for name, _ in self.below["Options"] for it in re.findall(r"(?<!\S)--?\w[\w-]*", name)]


def roff(text):
    """A line of text, as roff reads it."""
    text = text.replace("\\", "\\e").replace("-", "\\-")
    return f"\\&{text}" if text[:1] in (".", "'") else text


def man(version, whole, commands):
    lines = [f'.TH ST2110 1 "" "{version}" "Woqtarish"', ".SH NAME", f"st2110 \\- {roff(whole.about)}", ".SH SYNOPSIS"]
    for it in [whole, *commands.values()]:
        lines += [f".B {roff(it.usage)}", ".br"]
    lines += [".SH COMMANDS"]
    for name, about in whole.below["Commands"]:
        lines += [f".SS {name}", f"{roff(about)}."]
        for title, entries in commands[name].below.items() if name in commands else ():
            lines += [".PP", f"{title}:"]
            for word, text in entries:
                lines += [".TP", f".B {roff(word)}", roff(text)]
    lines += [".SH OPTIONS"]
    for word, text in whole.below["Options"]:
        lines += [".TP", f".B {roff(word)}", roff(text)]
    return lines


def bash(whole, commands):
    names = " ".join(name for name, _ in whole.below["Commands"])
    lines = [
        "# The words of st2110, for bash. Where none is offered, files are.",
        "_st2110() {",
        "    local word=${COMP_WORDS[COMP_CWORD]} command= given",
        "    # (bash parts words at : and = too)",
        "    local line=${COMP_LINE:0:COMP_POINT}",
        "    local last=${line##* } option= values=",
        "    case $last in",
        "        --*=*) option=${last%%=*} last=${last#*=} ;;",
        "        *) option=${line% *} option=${option##* } ;;",
        "    esac",
        '    for given in "${COMP_WORDS[@]:1:COMP_CWORD-1}"; do',
        '        [ -n "$command" ] || [ "${given#-}" != "$given" ] || command=$given',
        "    done",
        "    COMPREPLY=()",
        "    case $command in",
        f"        '') COMPREPLY=($(compgen -W '{names} {' '.join(whole.options())}' -- \"$word\")) ;;",
        f"        help) COMPREPLY=($(compgen -W '{names}' -- \"$word\")) ;;",
    ]
    for name, it in commands.items():
        offered = f"compgen -W '{' '.join(it.options())}' -- \"$word\""
        valued = [f"{option}) values='{' '.join(values)}' ;;" for option, values in it.values().items()]
        lines += [f"        {name})"]
        if valued:
            lines += ["            case $option in", *(f"                {one}" for one in valued), "            esac"]
        lines += [f"            [ \"${{word#-}}\" = \"$word\" ] || COMPREPLY=($({offered}))", "            ;;"]
    return [
        *lines,
        "    esac",
        "    if [ -n \"$values\" ]; then",
        "        COMPREPLY=($(compgen -W \"$values\" -- \"$last\"))",
        "        [ \"${COMP_WORDBREAKS#*:}\" = \"$COMP_WORDBREAKS\" ] ||",
        "            COMPREPLY=(\"${COMPREPLY[@]#\"${last%\"${last##*:}\"}\"}\")",
        "    fi",
        "}",
        "complete -o default -F _st2110 st2110",
    ]


def main(program, form):
    whole = Help(program)
    commands = {name: Help(program, name) for name, _ in whole.below["Commands"] if name != "help"}
    version = subprocess.run([program, "--version"], stdout=subprocess.PIPE, check=True, encoding="utf-8").stdout.strip()
    print("\n".join(man(version, whole, commands) if form == "man" else bash(whole, commands)))


if __name__ == "__main__":
    if len(sys.argv) != 3 or sys.argv[2] not in ("man", "bash"):
        sys.exit(__doc__)
    main(*sys.argv[1:])
