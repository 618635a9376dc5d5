"""The list of a project's languages, LINGUAS, as gettext's Makefiles and Meson read it."""

NAME = "LINGUAS"


def with_languages(data, languages):
    """The list with these languages too, each new one on a line of its own behind the others; None where it has them all."""
    lines = data.decode(errors="surrogateescape").split("\n")
    listed = {word for line in lines for word in line.partition("#")[0].split()}
    missing = sorted(set(languages) - listed)
    if not missing:
        return None
    kept = lines if lines[-1] else lines[:-1]
    return "\n".join([*kept, *missing, ""]).encode(errors="surrogateescape")
