"""README.md's examples, taken from README.md itself: each is run as it is printed there and has to do what is said there."""
import os
import re
import shlex
import subprocess
import sys

import folders
import program
from scripts import written
from tally import Words


# ---- what is printed there


def page():
    with open("README.md", encoding="utf-8") as file:
        return file.read()


def section(heading):
    """What stands under a heading, up to the next one."""
    return found(r"(?ms)^#+ %s\n(.*?)(?=^#|\Z)" % re.escape(heading), page(), "heading '%s'" % heading)


def found(pattern, text, what):
    """The first group of a pattern. README.md without it is a failure of its own."""
    match = re.search(pattern, text)
    if not match:
        raise LookupError("README.md has no %s" % what)
    return match.group(1)


def printed(text, beginning):
    """The indented lines of the first example that begins so, without their indent. Blank lines stand inside an example, other words between two."""
    examples = re.findall(r"(?m)^(?:    .*\n(?:\n+(?=    ))?)+", text)
    for example in examples:
        lines = [line[4:] for line in example.splitlines()]
        if lines[0].startswith(beginning):
            return lines
    raise LookupError("README.md has no example that begins with %s" % beginning)


def command_of(lines, beginning):
    """The line of an example that begins so, without the remark behind it, and what the remark says is printed."""
    for line in lines:
        if line.startswith(beginning):
            command, _, remark = line.partition("  #")
            return command.strip(), remark.replace("prints:", "").strip()
    raise LookupError("README.md has no line that begins with %s" % beginning)


# ---- running it


def says(command, where, **changed):
    """What a line for the shell prints and ends with."""
    done = subprocess.run(["sh", "-c", command], cwd=where, env=dict(os.environ, **changed), stdin=subprocess.DEVNULL, stdout=subprocess.PIPE,
                          stderr=subprocess.STDOUT, universal_newlines=True, errors="backslashreplace")
    return done.returncode, done.stdout


def stand_in(room):
    """Makes a folder look like the top of the repository to the examples, so that they leave their files there and not in the tree."""
    for name in ("include", "python", "target"):
        os.symlink(os.path.abspath(name), os.path.join(room, name))
    path = os.path.join(room, "filter")
    written(path, ('#!/bin/sh\nexec "%s" "$@"\n' % os.path.abspath("filter")).encode())
    os.chmod(path, 0o755)


def from_shell(tally, room):
    """The two lines for the shell: what is printed, and the bytes of `out`."""
    text = page()
    lines = printed(text, "printf ")
    said = found(r"prints `(ok [\d ]+)`", text, "line that ./filter prints")
    samples = bytes.fromhex(found(r"the bytes ((?:[0-9A-F]{2} ?)+)", text, "bytes of out"))
    tally.equal("the example for the shell", says("\n".join(lines), room), (0, said + "\n"))
    still, out = (folders.lies_at(os.path.join(room, name)).bytes for name in ("still", "out"))
    tally.equal("the example for the shell: out", out, (still or b"")[:-len(samples)] + samples)


def program_lines(room, size, radii):
    """What the program says of a flat still of a size, by a box of some radii."""
    width, height = map(int, size.split(" by "))
    return filtered(room, b"P5\n%d %d\n255\n" % (width, height) + bytes(width * height), bytes([1, 4, 1, 0, *radii]))[0].split()[:2]


def sizes(tally, room):
    """The sizes that are said to fit the program, and those that are not; and up to how many columns every box fits."""
    text = section("Which front end")
    for size in re.findall(r"\d+ by \d+", found(r"every still: (.+) fit;", text, "sizes that fit")):
        tally.equal("%s fits" % size, program_lines(room, size, (0, 0))[0], "ok")
    for size in re.findall(r"\d+ by \d+", found(r"fit; (.+) do not", text, "sizes that do not fit")):
        tally.equal("%s does not fit" % size, program_lines(room, size, (0, 0)), ["no", "20"])
    columns = int(found(r"up to (\d+) columns fits with all of them", text, "columns that fit with all boxes"))
    tally.equal("%d columns with the largest box" % columns, program_lines(room, "%d by 3" % columns, (15, 15))[0], "ok")
    tally.equal("a column more with the largest box", program_lines(room, "%d by 3" % (columns + 1), (15, 15)), ["no", "20"])
    tally.equal("a column more with a smaller box", program_lines(room, "%d by 3" % (columns + 1), (15, 14))[0], "ok")


def from_c(tally, room):
    """The program in C, by the command printed below it."""
    text = section("From C")
    lines = printed(text, "#include")
    command, _ = command_of(lines, "cc ")
    said = found(r"prints\s+`([^`]+)`", text, "line that the program in C prints")
    written(os.path.join(room, "example.c"), "\n".join(lines[:lines.index(command)]).encode())
    tally.equal("the example in C", says(command, room), (0, said + "\n"))


def c_program(tally, room):
    """The whole program in C, by the command printed for it."""
    command, _ = command_of(printed(section("From C"), "cc -I include c/filter.c"), "cc ")
    os.symlink(os.path.abspath("c"), os.path.join(room, "c"))
    written(os.path.join(room, "STILL"), program.STILL)
    written(os.path.join(room, "RECIPE"), program.RECIPE)
    tally.equal("the whole program in C", says(command, room), (0, program.LINE + "\n"))
    tally.equal("the whole program in C: OUT", folders.lies_at(os.path.join(room, "OUT")).bytes, program.OUT)


def from_rust(tally, room):
    """The lines in Rust, in a package that depends on this one. They compare by themselves, so a run without an error is all."""
    lines = printed(section("From Rust"), "let still")
    if not any(line.startswith("assert_eq!") for line in lines):
        raise LookupError("README.md's lines in Rust compare nothing")
    package = os.path.join(room, "package")
    os.makedirs(os.path.join(package, "src"))
    manifest = '[package]\nname = "readme"\nversion = "0.1.0"\nedition = "2021"\n\n[dependencies]\nhejslopi = { path = "%s" }\n'
    written(os.path.join(package, "Cargo.toml"), (manifest % os.path.abspath("rust")).encode())
    body = "fn main() -> Result<(), hejslopi::Refusal> {\n%s\nOk(())\n}\n" % "\n".join(lines)
    written(os.path.join(package, "src", "main.rs"), body.encode())
    libraries = os.path.abspath(os.path.join("target", "staticlib"))
    answer = says("cargo run --quiet --offline", package, CARGO_TARGET_DIR=os.path.join(package, "target"), HEJSLOPI_LIB_DIR=libraries)
    tally.equal("the example in Rust", answer, (0, ""))


def rust_program(tally, room):
    """The package's own program, which the printed command builds with a library that the package makes by itself."""
    command, _ = command_of(printed(section("From Rust"), "cargo "), "cargo run")
    for word in ("STILL", "RECIPE", "OUT"):
        command = command.replace(" " + word, " " + shlex.quote(os.path.join(room, word)))
    written(os.path.join(room, "STILL"), program.STILL)
    written(os.path.join(room, "RECIPE"), program.RECIPE)
    status, text = says(command.replace("cargo run", "cargo run --quiet"), ".")
    tally.equal("the Rust package's program", (status, text), (0, program.LINE + "\n"))
    tally.equal("the Rust package's program: OUT", folders.lies_at(os.path.join(room, "OUT")).bytes, program.OUT)


def from_python(tally, room):
    """The lines in Python: the remark at the last says what becomes of it."""
    lines = printed(section("From Python"), "import hejslopi")
    samples = found(r"# \.\. ((?:[0-9A-F]{2} ?)+), and \d+$", lines[-1], "bytes of the picture in Python")
    tolerance = found(r"and (\d+)$", lines[-1], "T of the picture in Python")
    body = "\n".join(lines + ["print(picture[-3:].hex(' ').upper(), T)"])
    written(os.path.join(room, "example.py"), body.encode())
    answer = says("%s example.py" % shlex.quote(sys.executable), room, PYTHONPATH="python")
    tally.equal("the example in Python", answer, (0, "%s %s\n" % (samples, tolerance)))


def from_panel(tally, room):
    """The lines with limits, behind those that make their recipe: the picture and T are the same, and what is refused is said as printed."""
    text = section("From Python")
    lines = printed(text, "still = ")
    _, refusal = command_of(lines, "    print(")
    body = printed(text, "import hejslopi") + ["first = picture, T"] + lines + ["print(first == (picture, T))"]
    written(os.path.join(room, "panel.py"), "\n".join(body).encode())
    answer = says("%s panel.py" % shlex.quote(sys.executable), room, PYTHONPATH="python")
    tally.equal("limits in Python", answer, (0, "%s\nTrue\n" % refusal))


def from_planner(tally, room):
    """The lines that ask what must be lent, behind those that make their recipe: what they print."""
    text = section("From Python")
    lines = printed(text, "need = ")
    _, numbers = command_of(lines, "print(")
    written(os.path.join(room, "planner.py"), "\n".join(printed(text, "import hejslopi") + lines).encode())
    tally.equal("needs in Python", says("%s planner.py" % shlex.quote(sys.executable), room, PYTHONPATH="python"), (0, numbers + "\n"))


def from_scorer(tally, room):
    """The lines that count movement, behind those that make their recipe: what they print, and the picture of the remark."""
    text = section("From Python")
    lines = printed(text, "before, after = ")
    _, counts = command_of(lines, "print(")
    _, remark = command_of(lines, "picture = hejslopi.movement_picture")
    samples = bytes.fromhex("".join(re.findall(r"(?:[0-9A-F]{2} ){2}[0-9A-F]{2}", remark)))
    body = printed(text, "import hejslopi") + lines + ["print(picture)"]
    written(os.path.join(room, "scorer.py"), "\n".join(body).encode())
    answer = says("%s scorer.py" % shlex.quote(sys.executable), room, PYTHONPATH="python")
    tally.equal("the scorer in Python", answer, (0, "%s\n%r\n" % (counts, b"P6" + program.STILL[2:-3] + samples)))


def from_viewer(tally, room):
    """The lines of a viewer that keeps a background, behind those that make their recipe: what they print, the remark about the mean, and the still that is shown."""
    text = section("From Python")
    lines = printed(text, "background = ")
    _, number = command_of(lines, "    print(")
    _, mean = command_of(lines, "raster, T = background.mean()")
    samples, tolerance = (found(pattern, mean, "mean of a background") for pattern in (r"^((?:[0-9A-F]{2} ?)+),", r"and (\d+);"))
    shown = found(r"`(hejslopi\.write_still\(.*?\))` makes", text, "a still of the mean")
    body = printed(text, "import hejslopi") + lines + ["print(raster.hex(' ').upper(), T)", "shown = " + shown, "print(shown[:-3], shown[-3:] == raster)"]
    written(os.path.join(room, "viewer.py"), "\n".join(body).encode())
    answer = says("%s viewer.py" % shlex.quote(sys.executable), room, PYTHONPATH="python")
    tally.equal("the viewer in Python", answer, (0, "%s\n%s %s\n%r True\n" % (number, samples, tolerance, program.STILL[:-3])))


def described(room):
    """Lays the description in JSON, a still for it and a later one, and gives the lines of the commands below it."""
    lines = printed(section("From Python"), "[{")
    first = next(k for k, line in enumerate(lines) if line.startswith("python3 "))
    written(os.path.join(room, "description.json"), "\n".join(lines[:first]).encode())
    written(os.path.join(room, "still.pgm"), program.STILL)
    # Both stages leave 13 23 35 of the first, and of this one 13 43 95.
    written(os.path.join(room, "later.pgm"), program.STILL[:-1] + bytes([120]))
    return lines[first:]


COMMAND = "python3 python/hejslopi.py"


def python_commands(tally, room):
    """The commands in Python that say what they print: a recipe made, a still filtered, what that needs, movement counted, a recipe explained."""
    lines = described(room)
    for beginning in ("recipe", "filter still.pgm", "needs", "movement"):
        command, said = command_of(lines, "%s %s" % (COMMAND, beginning))
        tally.equal(command, says(command, room), (0, said + "\n"))
    command, _ = command_of(lines, COMMAND + " explain")
    table = next(k for k, line in enumerate(lines) if line.startswith("stage "))
    tally.equal(command, says(command, room), (0, "\n".join(lines[table:]) + "\n"))


def python_commands_on(tally, room):
    """The commands that say what becomes of it: a description that gives the same bytes, many stills, the line about a wrong description."""
    lines = described(room)
    says(command_of(lines, COMMAND + " recipe")[0], room)
    _, description = says(command_of(lines, COMMAND + " describe")[0], room)
    written(os.path.join(room, "again.json"), description.encode())
    says(COMMAND + " recipe again.json again.recipe", room)
    again, before = (folders.lies_at(os.path.join(room, name)).bytes for name in ("again.recipe", "denoise.recipe"))
    tally.equal("a recipe described and made again", again, before)
    command, _ = command_of(lines, COMMAND + " filter denoise.recipe")
    tally.equal(command, says(command, room), (0, "filtered/later.pgm T 33280\nfiltered/still.pgm T 33280\n"))
    wrong = found(r"answered with its place: `([^`]+)`", section("From Python"), "answer to a wrong description")
    written(os.path.join(room, "wrong.json"), b'[{"kind": "binomail", "across": 1, "down": 1}]')
    tally.equal("a wrong description", says(COMMAND + " recipe wrong.json wrong", room), (1, "hejslopi: wrong.json: %s\n" % wrong))


# ---- recipes byte by byte


def listed(lines):
    """The bytes of a recipe that is printed with words beside them."""
    return bytes.fromhex("".join(found(r"^((?:[0-9A-F]{2} +)+)", line, "bytes in '%s'" % line) for line in lines))


def filtered(room, still, recipe):
    """What the program says of a still and a recipe, and what it writes."""
    written(os.path.join(room, "still"), still)
    written(os.path.join(room, "recipe"), recipe)
    said = program.run(program.to_try(), room)
    return said, folders.lies_at(os.path.join(room, "out")).bytes


def recipes(tally, room):
    """The recipes that are printed byte by byte, with the T that is given for them or with samples that are worked by hand from their words."""
    text = section("Recipes")
    whole, first = (found(pattern, text, "T of two stages").replace(",", "") for pattern in (r"Its T is ([\d,]+)", r"\(([\d,]+) after the first stage"))
    two = listed(printed(text, "02 "))
    tally.equal("the recipe of two stages", filtered(room, program.STILL, two)[0], "ok 3 1 1 %s\n" % whole)
    tally.equal("the first of two stages", filtered(room, program.STILL, b"\x01" + two[1:6])[0], "ok 3 1 1 %s\n" % first)
    tally.equal("the example's recipe", listed(printed(text[text.index("The example above"):], "01 ")), program.RECIPE)
    # Mirrored, 8 16 40 has the neighbours 8 16, 8 40 and 16 40: 8 + 8/4, 16 + 32/4, 40 + 24/4.
    ratios = listed(printed(text[text.index("Ratios with"):], "01 "))
    said, out = filtered(room, program.STILL[:-3] + bytes([8, 16, 40]), ratios)
    tally.equal("the recipe of ratios", (Words(said[:8]), out and out[-3:]), ("ok 3 1 1", bytes([10, 24, 46])))
    # One row that stands for all: three times the right neighbour less the left, 16 - 8, 40 - 8, 40 - 16.
    outline = listed(printed(text[text.index("An outline, byte"):], "01 "))
    said, out = filtered(room, program.STILL[:-3] + bytes([8, 16, 40]), outline)
    tally.equal("the recipe of an outline", (said, out and out[-3:]), ("ok 3 1 1 0\n", bytes([24, 96, 72])))


def outline_kernels(tally, room):
    """The kernels of an outline as they are printed, by a still of 3 by 3 for each: 40 where it has 1, 0 where it has -1, else 20. Six weights of 1 or -1 give
    120 only if they are those of a kernel of the program, all six."""
    rows = [list(map(int, line.split())) for line in printed(section("Recipes"), "-1 ")]
    kernels = [tuple(weight for row in rows for weight in row[k:k + 3]) for k in range(0, 12, 3)]
    for number, kernel in enumerate(kernels, 1):
        said, out = filtered(room, b"P5\n3 3\n255\n" + bytes(20 + 20 * weight for weight in kernel), b"\x01\x06\x01\x00")
        tally.equal("the outline's kernel %d" % number, (said, out and out[-5], sum(map(abs, kernel))), ("ok 3 3 1 0\n", 120, 6))
    tally.equal("no kernel comes twice", len({max(kernel, tuple(-weight for weight in kernel)) for kernel in kernels}), 4)


def try_readme(tally):
    """Each example in a folder of its own, so that none finds what another has made. One that is not there is a failure and stops no other."""
    for example in (from_shell, sizes, recipes, outline_kernels, from_c, c_program, from_python, from_panel, from_planner, from_scorer, from_viewer, python_commands, python_commands_on, from_rust, rust_program):
        with folders.fresh_folder() as room:
            stand_in(room)
            try:
                example(tally, room)
            except (LookupError, ValueError) as wrong:
                tally.fails(example.__name__, Words(wrong), Words("an example"))
