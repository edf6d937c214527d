"""The man pages and the completion of bash, both made from what the executable's own help prints."""
import re
import subprocess

STATUS_TITLE = re.compile(r"^The exit status is ", re.M)


def help_of(executable, *command):
    text = subprocess.run([str(executable), *command, "--help"], check=True, capture_output=True, text=True).stdout
    return text.replace(f"Usage: {executable.name}", "Usage: hub")


def commands_of(executable):
    """The commands and what each is for, as the help lists them, without `help`."""
    listed = help_of(executable).split("\nCommands:\n")[1].split("\n\n")[0]
    pairs = [line.split(None, 1) for line in listed.splitlines()]
    return {name: about for name, about in pairs if name != "help"}


def sections(text):
    """A help's parts: the description, the usage, the options with their texts, and what stands behind them."""
    description, _, rest = text.partition("\nUsage: ")
    usage, _, rest = rest.partition("\n")
    options, arguments = [], []
    behind = rest
    for title, found in (("Arguments", arguments), ("Options", options)):
        before, mark, after = behind.partition(f"{title}:\n")
        if not mark:
            continue
        lines = after.splitlines()
        end = next((at for at, line in enumerate(lines) if line and not line.startswith(" ")), len(lines))
        behind = "\n".join(lines[end:])
        for line in lines[:end]:
            if re.match(r" {2,6}[-<]", line):
                found.append((line.strip(), []))
            elif line.strip() and found:
                found[-1][1].append(line.strip())
    return description.strip(), usage, arguments + options, behind.strip()


def escaped(text):
    """A text as roff has it: no backslash, minus, quote or dot of it means anything."""
    text = text.replace("\\", "\\e").replace("-", "\\-").replace("'", "\\(aq").replace("`", "\\(ga")
    return "\n".join("\\&" + line if line.startswith((".", "\\(aq")) else line for line in text.splitlines())


def paragraphs(text):
    """Running text, and indented lines as they are."""
    made = []
    for part in re.split(r"\n\s*\n", text):
        if all(line.startswith("    ") for line in part.splitlines()):
            made.append(".PP\n.nf\n.RS 4\n" + escaped("\n".join(line[4:] for line in part.splitlines())) + "\n.RE\n.fi")
        else:
            made.append(".PP\n" + escaped(part))
    return "\n".join(made)


def page(name, about, text, version, others, files):
    description, usage, options, behind = sections(text)
    made = [f'.TH {name.upper()} 1 "" "hub {version}" "User Commands"',
            f".SH NAME\n{escaped(name)} \\- {escaped(about[0].lower() + about[1:])}",
            f".SH SYNOPSIS\n.nf\n{escaped(usage)}\n.fi",
            ".SH DESCRIPTION\n" + paragraphs(description)]
    if options:
        made.append(".SH OPTIONS")
        made += [".TP\n.B " + escaped(word) + "\n" + escaped("\n".join(lines) or "-") for word, lines in options]
    before, _, status = behind.partition("The exit status is ")
    body, _, example = status.partition("\nExample")
    if before.strip():
        made.append(".SH SESSIONS\n" + paragraphs(before.rstrip()))
    made.append(".SH EXIT STATUS\n" + paragraphs("The exit status is " + body.strip()))
    if example:
        title, _, lines = example.partition(":\n\n")
        title = title.strip(" ,")
        above = paragraphs(title[0].upper() + title[1:] + ":") + "\n" if title else ""
        made.append(".SH EXAMPLE\n" + above + paragraphs(lines))
    if files:
        made.append(".SH FILES\n.PP\n" + escaped(files))
    made.append(".SH SEE ALSO\n" + ", ".join(f"\\fB{escaped(other)}\\fR(1)" for other in others))
    return "\n".join(made) + "\n"


def manual_pages(executable, version):
    """The text of each man page, by its name."""
    commands = commands_of(executable)
    names = {f"hub-{name}": (name, about) for name, about in commands.items()}
    files = ("/usr/share/doc/hub/docs has the documents that the help names;\n"
             "/usr/share/doc/hub/examples has clients, filters and the service.")
    pages = {}
    description, _, rest = help_of(executable).partition("\nUsage: ")
    usage, _, rest = rest.partition("\n")
    listed = "\n".join(f"    hub-{name}(1)  {about}" for name, about in commands.items())
    text = (f"{description}\n\nThe commands, of which each has a page of its own:\n\n{listed}\n\nUsage: {usage}\n"
            + rest[rest.index("Options:"):])
    about = "a hub for one shared rich text, with verdicts of BPF programs on its spans"
    pages["hub"] = page("hub", about, text, version, sorted(names), files)
    for name, (command, about) in names.items():
        others = ["hub"] + sorted(set(names) - {name})
        pages[name] = page(name, about, help_of(executable, command), version, others, files)
    return pages


def options_of(executable, command):
    """The long options of a command, each with the value that it takes, None where it takes none."""
    found = {}
    for line in help_of(executable, command).splitlines():
        if match := re.match(r" {2,6}(?:-\w, )?(--[a-z-]+)(?:\[?[ =]*<([A-Z]+)>\]?)?\s*$", line):
            found[match[1]] = match[2]
    return found


def completion(executable):
    """A completion: commands, their options, and files where a value or an argument is a file, a folder or a path."""
    commands = commands_of(executable)
    options = {name: options_of(executable, name) for name in commands}
    cases = "\n".join(f'        {name}) options="{" ".join(sorted(options[name]))}" ;;' for name in commands)
    paths = sorted({option for known in options.values() for option, value in known.items()
                    if value in ("FILE", "PATH")})
    folders = sorted({option for known in options.values() for option, value in known.items() if value == "FOLDER"})
    takers = [name for name in commands if "<FROM>" in help_of(executable, name)]
    valued = sorted({option for known in options.values() for option, value in known.items()
                     if value not in (None, "FILE", "PATH", "FOLDER", "WHAT")})
    return f"""# Completion of hub for bash, made from its help.
_hub() {{
    local word=${{COMP_WORDS[COMP_CWORD]}} before=${{COMP_WORDS[COMP_CWORD-1]}} options
    COMPREPLY=()
    if ((COMP_CWORD == 1)); then
        COMPREPLY=($(compgen -W "{" ".join([*commands, "help"])} --help --version" -- "$word"))
        return
    fi
    case $before in
        {"|".join(paths)}) COMPREPLY=($(compgen -f -- "$word")); return ;;
        {"|".join(folders)}) COMPREPLY=($(compgen -d -- "$word")); return ;;
        {"|".join(valued)}) return ;;
    esac
    case ${{COMP_WORDS[1]}} in
{cases}
        help) options="{" ".join(commands)}" ;;
    esac
    case ${{COMP_WORDS[1]}} in
        {"|".join(takers)}) [[ $word == -* ]] || {{ COMPREPLY=($(compgen -f -- "$word")); return; }} ;;
    esac
    COMPREPLY=($(compgen -W "$options" -- "$word"))
}}
complete -F _hub hub
"""
