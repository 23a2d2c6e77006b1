"""Rules for the sources of the crates that no contract states, and for figures, links and lengths of pages."""
import glob
import os
import re
import subprocess
import sys

from crates import listed
from harness import TOP, example_rows, test

# The crates of ropes and of reports.
CITES_LAWS = re.compile(r"(str_indices|ropey|ropey_tree|ropey_walk|rope_search_(changes|templates|reports))/")
# Words of definitions with the same meaning for types of several crates.
SHARED = set("""CacheView ComesNext FollowEachOther Gives GivesInOrder GivesNext HasFinds HasFirstMatches InClass IsAnswer
    IsAnswerAt IsCacheOf IsEmptyAtLast IsShowing MatchesStandAtBoundaries Name OneOf StandsAtBoundaries between end_of
    is_among is_anchored joined left_of limit_in nodes_of none_set prefilter_of search_by showing span_of start_of
    with_replaced""".split())
# Words that have another meaning in a second crate, where modules keep them apart.
APART = set("Advances Begins count_of is_done left_in".split())
# Inner crates, and the crates of their group, which are the only ones to name them.
GROUPS = {r"ropey_(tree|walk)": r"ropey\w*", r"rx_\w+": r"rx_\w+|regex_cursor\w*",
          r"rope_search_(io|changes|reports|templates)": r"rope_search\w*"}
# Phrases that are not the field's English, in pages, in the header, and in scripts and tests with their comments; sources of
# crates are not read.
UNUSUAL = re.compile(r"\b(?:turned round|wants? of memory|lets? go of|serves? on|(?:is|are|be) come (?:by|to)|made anew|"
                     r"(?:steps?|pass(?:es)?) back|lies? in pieces|stands? (?:before|behind|there)|goes by|hands? on|"
                     r"what is told)\b", re.I)
READ_FOR_ENGLISH = ("*.md", "docs/*.md", "crates/*/README.md", "bindings/**/*", "examples/**/*", "include/*", "Makefile", "bench/*",
                    "bench/plain/src/*", "tests/**/*", "tools/*")
WRITTEN = {"docs/meaning.md", "docs/definitions.md", "tests/pages/test_sources.py"}  # by tools/meaning; and this list
# A line whose call only shows a proof an invariant of the type.
FOR_PROOFS = r"^ *let _ = \(?[\w.]+\(\)"


def sources():
    """The paths of the code of libraries, each below crates/, and its text, without comments."""
    for path in sorted(glob.glob(os.path.join(TOP, "crates", "*", "src", "**", "*.rt"), recursive=True)):
        crate = os.path.relpath(path, os.path.join(TOP, "crates")).split(os.sep)[0]
        root = os.path.join(TOP, "crates", crate, "src", "lib.rt")
        is_library = os.path.exists(root) and "#[cfg(test)]" not in read(root)
        if is_library:
            yield os.path.relpath(path, os.path.join(TOP, "crates")), re.sub(r"//.*", "", read(path))


def read(path):
    with open(path, encoding="utf-8") as file:
        return file.read()


def that_name(form, files):
    return [path for path, text in files if re.search(form, text)]


def test_counters():
    """Rows and searches are counted by the caller's counter: no library makes a counter of its own, except when a C
    program opens a session."""
    above = [(path, text) for path, text in sources() if path.startswith("rope_search")]
    wrong = [f"{path} makes one" for path in that_name(r"\bLines\s*::\s*new\b", above)]
    wrong += [f"{path} makes one" for path in that_name(r"\bLines\s*::\s*for_caller_in_c\b", above)
              if path != "rope_search_c/src/counting.rt"]
    home = that_name(r"\b(Lines|CallerInC)\s*\{", above)
    test("no library makes a counter of rows", wrong + ([] if len(home) == 1 else [f"it is made in {home}"]))


def test_regexes():
    """A regex is built where searches are counted, and nowhere else above it."""
    above = [(path, text) for path, text in sources() if path.startswith("rope_search")]
    built = that_name(r"\bRegex\s*::\s*(new|builder)\b|\bPikeVM\s*::\s*new\b|\bBuilder\s*::\s*new\b", above)
    wrong = [f"{path} builds one" for path in built if not path.startswith("rope_search_reports/src/rows")]
    test("a regex is built where its searches are counted alone", wrong + ([] if len(built) == 1 else [f"{built}"]))
    wrong = [crate for crate, libraries in listed().items() if crate.startswith("rope_search") and "regex_cursor" in libraries]
    test("no other crate above names regex_cursor", [] if wrong == ["rope_search_reports"] else [f"{wrong}"])
    kept = ("rope_search_reports/src/rows/counted.rt", "rope_search_reports/src/laws.rt",
            "rope_search_reports/src/explaining.rt", "rope_search_reports/src/escaping.rt")
    shown = re.findall(r"\w+", " ".join(re.findall(r"regex_cursor::([^;]+);", "".join(map(dict(above).get, kept[2:])))))
    due = ["util", "syntax", "Config", "Mistake", "Reason", "Refusal", "explain", "SyntaxError", "escape"]
    test("what reports re-export of regex_cursor searches nothing", [] if shown == due else [f"{shown}"])
    reports = [(path, re.sub(r"^ *ghost use .*", "", text, flags=re.M)) for path, text in above
               if path.startswith("rope_search_reports/") and path not in kept]
    wrong = that_name(r"\bregex_cursor\b", reports)
    test("reports name regex_cursor where searches are counted alone", [f"{path} does" for path in wrong])
    calls = re.findall(r"\bregex\s*\.\s*(\w+)\(|\.(next_slots)\(", dict(above)[kept[0]])
    calls = sorted("".join(call) for call in calls)
    due = ["create_cache", "next_slots", "no_match_before", "search_slots_with"]
    test("the regex is called there in one line for each way to search", [] if calls == due else [f"{calls}"])


def test_groups():
    """An inner crate is named only inside its group: no file of a crate can name what crates.txt doesn't list."""
    wrong = [f"{crate} names {library}" for crate, libraries in listed().items() for library in libraries
             for inner, group in GROUPS.items() if re.fullmatch(inner, library) and not re.fullmatch(group, crate)]
    test(f"{len(listed())} crates name inner crates of their group alone", wrong)


def test_breaks():
    """The set of breaks is defined in one place."""
    ropes = [(path, text) for path, text in sources() if path.startswith("rope")]
    named = that_name(r"\bstr_indices\s*::\s*lines(_lf|_crlf)?\b", ropes)
    test("which line breaks count is named once", [] if named == ["ropey_tree/src/breaks.rt"] else [f"{named}"])


def test_positions():
    """Offsets are converted to positions and back by at most three chunks of a rope, without a conversion."""
    text = dict(sources())["rope_search_reports/src/positions.rt"]
    test("positions take no conversion", re.findall(r"\.\w+_to_\w+\(", text))
    count = len(re.findall(r"\.chunk\w*\(", text))
    test("positions take at most three chunks", [] if 0 < count <= 3 else [f"they take {count}"])


def test_laws():
    """A law is cited in proofs: a body that called it would have a line that does nothing."""
    bodies = [(path, text) for path, text in sources() if CITES_LAWS.match(path) and not path.endswith("/laws.rt")]
    calling = that_name(r"\blaws\s*::\s*\w+(::<\w+>)?\s*\(", bodies)
    test("ropes and reports call no law", [f"{path} does" for path in calling])
    lines = sum(len(re.findall(FOR_PROOFS, text, re.M)) for _, text in bodies)
    test("they have at most 46 lines for the proof alone", [] if 0 < lines <= 46 else [f"they have {lines}"])


def test_words():
    """A word of the definitions has one meaning, in one crate, except those with the same meaning for several types."""
    homes = {}
    for path in glob.glob(os.path.join(TOP, "crates", "*", "specs", "**", "*.antt"), recursive=True):
        crate = os.path.relpath(path, os.path.join(TOP, "crates")).split(os.sep)[0]
        form = r"^(?:pub )?(?:abbrev|record|data) (?:pub )?(?!mutual\b)([^\s:({]+)"
        for word in re.findall(form, read(path), re.M):
            homes.setdefault(word, set()).add(crate)
    twice = {word for word, crates in homes.items() if len(crates) > 1}
    wrong = [f"{word} is in {', '.join(sorted(homes[word]))}" for word in sorted(twice - SHARED - APART)]
    wrong += [f"{word} is not in two crates" for word in sorted((SHARED | APART) - twice)]
    test(f"{len(homes)} words of definitions are in one crate each, but for {len(SHARED | APART)}", wrong)


def test_meaning():
    """docs/meaning.md has the definitions that the main theorem rests on, each with its sentence, and no others, and
    docs/definitions.md has a line for each word."""
    command = [sys.executable, "-B", os.path.join(TOP, "tools", "meaning"), "--check"]
    checked = subprocess.run(command, stdout=subprocess.PIPE, stderr=subprocess.STDOUT)
    wrong = checked.stdout.decode().splitlines() or ["tools/meaning --check fails"] * (checked.returncode != 0)
    test("docs/meaning.md and docs/definitions.md are what tools/meaning writes, with all sentences", wrong)


def test_messages():
    """The program's messages for a run that stops early are those of the page, also if no test runs that long."""
    text = read(os.path.join(TOP, "crates", "rope_search_cli", "src", "main.rt"))
    form = re.search(r'eprintln!\(rt; "(.*)\{\}"', text)[1]
    told = {form + message for message in re.findall(r'Broken::\w+ => "(.*)"', text)}
    rows = example_rows("protocol.md", r"\| `(rope-search: .+)` \| .+ \|", "Faults outside the protocol")
    wrong = told ^ {row[1] for row in rows}
    test(f"the program has the {len(rows)} messages of docs/protocol.md", sorted(wrong) if len(rows) == 4 else ["there are others"])


def drawn(script):
    """The output of a benchmark script for the page of results."""
    command = [sys.executable, "-B", os.path.join(TOP, "bench", script), "--shown"]
    return subprocess.run(command, stdout=subprocess.PIPE).stdout.decode()


def test_picture():
    """The picture of README.md is the output of bench/plot for the page of results."""
    same = drawn("plot") == read(os.path.join(TOP, "docs", "letter.svg"))
    test("docs/letter.svg is what bench/plot draws", [] if same else ["it draws another: run bench/plot"])


def test_figures():
    """The table of README.md has the figures of the page of results, and each that it cites is there unchanged."""
    readme, results = read(os.path.join(TOP, "README.md")), read(os.path.join(TOP, "bench", "RESULTS.md"))
    same = "\n" + drawn("cite") in readme
    test("README.md has the table that bench/cite makes", [] if same else ["it makes another: run bench/cite"])
    table = re.findall(r"^\|.*", readme.split("\n## How fast\n")[1].split("\n## ")[0], re.M)
    cited = [f"{number} {unit}" for row in table for number, unit in re.findall(r"([\d.,]+) (ns|us|µs|ms|s|%)(?!\w)", row)]
    wrong = [figure for figure in cited if not re.search(rf"(?<![\d.,]){figure.replace('µ', 'u')}", results)]
    test(f"the {len(cited)} figures of README.md are in bench/RESULTS.md", wrong if cited else ["there is none"])


def test_costs():
    """The page of ways to embed the library has the cost of a letter for each, as the page of results does."""
    results, page = read(os.path.join(TOP, "bench", "RESULTS.md")), read(os.path.join(TOP, "docs", "embedding.md"))
    rows = re.findall(r"^\| (.*?) \| ([\d,]+) (ns|us|ms) \|", results.split("\n## embedded\n")[1].split("\n## ")[0], re.M)
    micros = {"ns": 0.001, "us": 1, "ms": 1000}
    measured = {name: int(number.replace(",", "")) * micros[unit] for name, number, unit in rows}
    names = {"C": "in C", "Rust": "in Rust", "Python": "in Python", "Lua": "in LuaJIT", "Node": "by the program from Node",
             "A web page": "in WebAssembly, in Node", "A child process": "by the program over pipes",
             "A language server": "by the language server", "Neovim": "in Neovim, with its own edit"}
    told = dict(re.findall(r"^\| \[([^]]*)\].*\| ([\d.,]+) µs \|$", page, re.M))
    due = {way: f"{measured[name]:,.{int(measured[name] < 10)}f}" for way, name in names.items() if name in measured}
    wrong = [] if told == due else [f"it has {told}, not {due}: run bench/cite"]
    test("docs/embedding.md has the time of a letter for each way that is measured", wrong)


def anchors(text):
    """The anchors of the headings of a page."""
    headings = re.findall(r"^#+ (.*)", re.sub(r"(?ms)^```.*?^```", "", text), re.M)
    return {re.sub(r"[^\w -]", "", heading).lower().replace(" ", "-") for heading in headings}


def broken_links(path):
    """The links of a page that lead to no file of this repository, or to no heading of the page that they name."""
    for link in re.findall(r"\]\(([^)\s]+)\)", re.sub(r"(?ms)^```.*?^```", "", read(path))):
        if "://" not in link:
            name, _, heading = link.partition("#")
            to = os.path.normpath(os.path.join(os.path.dirname(path), name)) if name else path
            if not os.path.exists(to) or heading and heading not in anchors(read(to)):
                yield f"{os.path.relpath(path, TOP)}: {link}"


def test_links():
    """Each link of a page leads somewhere."""
    forms = ("*.md", "docs/*.md", "bench/*.md", "crates/*/README.md", "tests/README.md", "tests/compiled/*/README.md",
             "bindings/*/README.md", "examples/*/README.md")
    pages = [path for form in forms for path in glob.glob(os.path.join(TOP, form))]
    wrong = [link for path in sorted(pages) for link in broken_links(path)]
    test(f"the links of {len(pages)} pages lead somewhere", wrong if pages else ["there is no page"])


def test_folders():
    """tests/README.md says what each folder of tests/ covers."""
    named = set(re.findall(r"^\| `(\w+)/` \|", read(os.path.join(TOP, "tests", "README.md")), re.M))
    folders = {os.path.basename(os.path.dirname(path)) for path in glob.glob(os.path.join(TOP, "tests", "*", "*"))}
    test("tests/README.md has a row for each folder of tests/", sorted(named ^ (folders - {"__pycache__"})))


def test_length():
    """The pages are short enough to read, except what tools/meaning writes."""
    def words(*paths):
        return sum(len(read(path).split()) for path in paths)

    results = os.path.join(TOP, "bench", "RESULTS.md")
    written = {os.path.join(TOP, "docs", name) for name in ("meaning.md", "definitions.md")}
    pages = {results, *(os.path.join(TOP, name) for name in ("README.md", "CONTRIBUTING.md")), *glob.glob(os.path.join(TOP, "docs", "*.md"))}
    readmes = glob.glob(os.path.join(TOP, "crates", "*", "README.md"))
    for what, count, most in (("bench/RESULTS.md has", words(results), 4_700), ("the pages have", words(*pages - written), 23_200),
                              ("the READMEs of crates have", words(*readmes), 7_200)):
        test(f"{what} {most:,} words at most", [] if count <= most else [f"it is {count:,}"])


def test_english():
    """Pages, the header, scripts and tests have none of certain phrases."""
    paths = {path for form in READ_FOR_ENGLISH for path in glob.glob(os.path.join(TOP, form), recursive=True)}
    names = {os.path.relpath(path, TOP) for path in paths if os.path.isfile(path)} - WRITTEN
    wrong = []
    for name in sorted(name for name in names if not re.search(r"/(target|node_modules|__pycache__)/|\.(lock|png|svg|jsonl)$", name)):
        for number, line in enumerate(read(os.path.join(TOP, name)).split("\n"), 1):
            wrong += [f"{name}:{number}: {found[0]}" for found in UNUSUAL.finditer(line)]
    test(f"{len(names)} files have none of the phrases that aren't usual in English", wrong if names else ["there is no file"])


def test_all():
    test_english()
    test_picture()
    test_figures()
    test_costs()
    test_links()
    test_folders()
    test_length()
    test_laws()
    test_words()
    test_meaning()
    test_messages()
    test_positions()
    test_counters()
    test_regexes()
    test_groups()
    test_breaks()
