"""What a refusal means is said in one wording wherever it is said: README.md's table, the header for C, and the sources of each front end."""
import re

# Numbers that a place has no words for: no call gives 21 and 22, and the program is asked for no channels and reads no other file.
LEFT_OUT = {"Python": {21, 22}, "./filter": {19, 22}}


def text_of(path):
    with open(path, encoding="utf-8") as file:
        return file.read()


def by_name(path, number, meaning):
    """Meanings that stand beside names, whose numbers stand elsewhere in the file."""
    text = text_of(path)
    numbers = {name: int(value) for name, value in re.findall(number, text)}
    return {numbers[name]: words for name, words in re.findall(meaning, text) if numbers.get(name)}


def by_number(path, meaning):
    return {int(number): words for number, words in re.findall(meaning, text_of(path))}


def from_readme():
    """The table's causes, without what is added in brackets."""
    return {number: re.sub(r" \([^()]*\)$", "", cause) for number, cause in by_number("README.md", r"(?m)^\| (\d+) \| [^|]+ \| (.+) \|$").items()}


def wordings():
    return {
        "include/hejslopi.h": by_name("include/hejslopi.h", r"HEJSLOPI_(\w+) = (\d+)", r"case HEJSLOPI_(\w+):\s*return \"([^\"]+)\""),
        "rust/src/refusal.rs": by_name("rust/src/refusal.rs", r"(\w+) = (\d+),", r"Refusal::(\w+) => \{?\s*\"([^\"]+)\""),
        "Python": by_number("python/hejslopi/refusals.py", r"(?m)^    (\d+): \"(.+)\",$"),
        "./filter": by_number("filter", r"(?m)^ +(\d+)\) echo \"([a-z][^\"]+)\" ;;$"),
    }


def try_wordings(tally):
    """One test for each number and place."""
    table = from_readme()
    for place, words in wordings().items():
        for number in sorted(set(table) | set(words)):
            expected = None if number in LEFT_OUT.get(place, ()) else table.get(number)
            tally.equal("%s: refusal %d" % (place, number), words.get(number), expected)
