"""Completions of a command for bash, zsh and fish, of what it takes."""
from typing import Iterator, NamedTuple

from packing.command_shapes import Shape

MADE = "# Completion of %s, made by tools/dev/package of what the command takes."


class Place(NamedTuple):
    """A command and the words by which it is reached, behind the name of all."""

    words: tuple[str, ...]
    shape: Shape


def places(shape: Shape, words: tuple[str, ...] = ()) -> Iterator[Place]:
    yield Place(words, shape)
    for child in shape.below:
        yield from places(child, (*words, child.name))


def _at(words: tuple[str, ...]) -> str:
    """How the scripts keep the words that reach a command."""
    return "".join(" " + word for word in words)


def _names(shape: Shape) -> list[str]:
    return [name for option in shape.options for name in option.names]


def _quoted(text: str) -> str:
    return "'" + text.replace("'", "'\\''") + "'"


def bash(shape: Shape) -> str:
    function = "_" + shape.name.replace("-", "_")
    lines = [MADE % shape.name, function + "() {",
             "    local word=${COMP_WORDS[COMP_CWORD]} before=${COMP_WORDS[COMP_CWORD - 1]} at= k names= words=",
             "    COMPREPLY=()",
             "    for ((k = 1; k < COMP_CWORD; k++)); do",
             '        case "$at ${COMP_WORDS[k]}" in']
    lines += ['            %s) at=%s ;;' % (_quoted(_at(place.words)), _quoted(_at(place.words))) for place in places(shape) if place.words]
    lines += ["        esac", "    done", '    case "$at $before" in']
    for place in places(shape):
        for option in place.shape.options:
            if option.value is not None:
                patterns = "|".join(_quoted(_at((*place.words, name))) for name in option.names)
                # Without words readline offers files.
                lines.append("        %s) COMPREPLY=($(compgen -W %s -- \"$word\")); return ;;" % (patterns, _quoted(" ".join(option.choices))))
    lines += ["    esac", '    case "$at" in']
    lines += ["        %s) words=%s names=%s ;;" % (_quoted(_at(place.words)), _quoted(" ".join(child.name for child in place.shape.below)),
                                                 _quoted(" ".join(_names(place.shape)))) for place in places(shape)]
    lines += ["    esac", '    case $word in -*) words=$names ;; esac', '    COMPREPLY=($(compgen -W "$words" -- "$word"))', "}",
              "complete -o bashdefault -o default -F %s %s" % (function, shape.name)]
    return "".join(line + "\n" for line in lines)


def _pairs(pairs: list[tuple[str, str]]) -> str:
    """Names with what they do, as _describe of zsh takes them."""
    return " ".join(_quoted("%s:%s" % (name.replace(":", "\\:"), told)) for name, told in pairs)


def zsh(shape: Shape) -> str:
    lines = ["#compdef " + shape.name, MADE % shape.name, "local at= k", "local -a words_here names_here", "for ((k = 2; k < CURRENT; k++)); do",
             '    case "$at $words[k]" in']
    lines += ["        (%s) at=%s ;;" % (_quoted(_at(place.words)), _quoted(_at(place.words))) for place in places(shape) if place.words]
    lines += ["    esac", "done", 'case "$at $words[CURRENT-1]" in']
    for place in places(shape):
        for option in place.shape.options:
            if option.value is not None:
                patterns = "|".join(_quoted(_at((*place.words, name))) for name in option.names)
                offer = "compadd -- " + " ".join(option.choices) if option.choices else "_files"
                lines.append("    (%s) %s; return ;;" % (patterns, offer))
    lines += ["esac", 'case "$at" in']
    for place in places(shape):
        names = [(name, option.told) for option in place.shape.options for name in option.names]
        lines.append("    (%s) words_here=(%s) names_here=(%s) ;;" % (
            _quoted(_at(place.words)), _pairs([(child.name, child.told) for child in place.shape.below]), _pairs(names)))
    lines += ["esac", 'if [[ $words[CURRENT] == -* ]]; then', "    _describe -o option names_here", "elif (( $#words_here )); then",
              "    _describe command words_here", "else", "    _files", "fi"]
    return "".join(line + "\n" for line in lines)


def _fish_names(names: tuple[str, ...]) -> str:
    return " ".join(("-l " + name[2:]) if name.startswith("--") else "-s " + name[1:] for name in names)


def fish(shape: Shape) -> str:
    lines = [MADE % shape.name]
    for place in places(shape):
        seen = ["__fish_seen_subcommand_from " + word for word in place.words]
        if place.shape.below:
            below = " ".join(child.name for child in place.shape.below)
            here = " ; and ".join([*seen, "not __fish_seen_subcommand_from " + below])
            lines += ["complete -c %s -n %s -f -a %s -d %s" % (shape.name, _quoted(here), child.name, _quoted(child.told)) for child in place.shape.below]
        condition = "-n %s " % _quoted(" ; and ".join(seen)) if seen else ""
        for option in place.shape.options:
            value = "" if option.value is None else (" -x -a " + _quoted(" ".join(option.choices)) if option.choices else " -r")
            lines.append("complete -c %s %s%s%s -d %s" % (shape.name, condition, _fish_names(option.names), value, _quoted(option.told)))
    return "".join(line + "\n" for line in lines)
