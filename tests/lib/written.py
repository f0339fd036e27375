"""The manual page and the completions of a command, beside its help."""

import re
import subprocess

from lib.report import TOP


def option_lines(text):
    """The options of a help text, each with what it says of it."""
    lines = text.decode().split("Options:\n", 1)[1].split("\n\n")[0].splitlines()
    return [re.fullmatch(r" *(?:(-.), +)?--([a-z-]+)(?: <[A-Z]+>)? +(.*)", line).groups() for line in lines]


def written_down(calls, name, seconds):
    """The manual page and the completions of `share` have the options of the help, in its words, to which the page may
    add some behind a semicolon."""
    asked = subprocess.run([calls.program, "--help"], capture_output=True, timeout=seconds).stdout
    page = (TOP / f"share/man/{name}.1").read_text().replace("\\-", "-")
    zsh = (TOP / f"share/completions/_{name}").read_text().replace("\\", "")
    fish = (TOP / f"share/completions/{name}.fish").read_text()
    bash = (TOP / f"share/completions/{name}.bash").read_text()
    options = option_lines(asked)
    told = [(option, words) for _, option, words in options]
    calls.compare("the options of the manual page", told,
                  re.findall(r"^\.B[IR] (?:-., \", \" )?(?:-. \", \" )?--([a-z-]+).*\n([^;\n]*)", page, re.M))
    calls.compare("the options of zsh's completion", told,
                  re.findall(r"--([a-z-]+)}?'?\[(.*?\]?)\](?::[A-Z]+:[^'\"]*)?['\"]", zsh))
    calls.compare("the options of fish's completion", told,
                  re.findall(r"-l ([a-z-]+) [^\n]*?(?:\\\n)? *-d ['\"](.*)['\"]", fish))
    known = re.search(r'compgen -W \\\n\s+"(.*?)"', bash).group(1).split()
    given = [word for short, option, _ in options for word in (short, "--" + option) if word]
    calls.compare("the options of bash's completion", given, known)
