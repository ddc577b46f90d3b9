"""The word lists that bench/languages tries: where each is, which packages have it, and how its words are read."""

import collections
import gzip
import os
import random
import re
import subprocess
import tarfile
import tempfile
import unicodedata

import hyphenation

PATTERNS = "usr/share/texlive/texmf-dist/tex/generic/hyph-utf8/patterns"
EXCEPTIONS = "usr/share/texlive/texmf-dist/tex/generic/hyphenex/ushyphex.tex"
WEBSTER = "usr/share/dictd/gcide.dict.dz"
NORWEGIAN = "norwegian_2.2.orig.tar.gz"

# What is taken out of a package.
WANTED = re.compile(r"usr/share/(dict/|hunspell/[^/]*\.(dic|aff)$|hyphen/[^/]*\.dic$|dictd/gcide\.dict\.dz$|texlive/.*/(hyph-utf8/patterns/(txt|tex)/|hyphenex/))")

# The package of each pattern file of hyph-utf8.
PATTERN_PACKAGES = {
    "texlive-lang-cyrillic": "be bg mn-cyrl ru sh-cyrl sh-latn sr-cyrl uk",
    "texlive-lang-czechslovak": "cs sk",
    "texlive-lang-english": "en-gb en-us",
    "texlive-lang-european": "da et ga hr hsb hu is kmr lt lv nb nl nn oc ro sl sv tr",
    "texlive-lang-french": "eu fr",
    "texlive-lang-german": "de-1901 de-1996 de-ch-1901",
    "texlive-lang-greek": "el-monoton",
    "texlive-lang-italian": "it",
    "texlive-lang-other": "af bn eo gu hi hy id ml te th",
    "texlive-lang-polish": "pl",
    "texlive-lang-portuguese": "pt",
    "texlive-lang-spanish": "ca es gl",
}

# The languages: the tag of the patterns, a name, the package of the words, and their file below usr/share.
LANGUAGES = """
af          | Afrikaans            | hunspell-af       | hunspell/af_ZA.dic
be          | Belarusian           | hunspell-be       | hunspell/be_BY.dic
bg          | Bulgarian            | wbulgarian        | dict/bulgarian
bn          | Bengali              | hunspell-bn       | hunspell/bn_BD.dic
ca          | Catalan              | wcatalan          | dict/catalan
cs          | Czech                | hunspell-cs       | hunspell/cs_CZ.dic
da          | Danish               | wdanish           | dict/danish
de-1901     | German of 1901       | wogerman          | dict/ogerman
de-1996     | German of 1996       | wngerman          | dict/ngerman
de-ch-1901  | German, Swiss        | wswiss            | dict/swiss
el-monoton  | Greek                | hunspell-el       | hunspell/el_GR.dic
en-gb       | English, British     | wbritish          | dict/british-english
en-us       | English, American    | wamerican         | dict/american-english
eo          | Esperanto            | wesperanto        | dict/esperanto
es          | Spanish              | wspanish          | dict/spanish
et          | Estonian             | myspell-et        | hunspell/et_EE.dic
eu          | Basque               | hunspell-eu       | hunspell/eu.dic
fr          | French               | wfrench           | dict/french
ga          | Irish                | wirish            | dict/irish
gl          | Galician             | hunspell-gl       | hunspell/gl_ES.dic
gu          | Gujarati             | hunspell-gu       | hunspell/gu_IN.dic
hi          | Hindi                | hunspell-hi       | hunspell/hi_IN.dic
hr          | Croatian             | hunspell-hr       | hunspell/hr_HR.dic
hu          | Hungarian            | hunspell-hu       | hunspell/hu_HU.dic
hy          | Armenian             | myspell-hy        | hunspell/hy_AM.dic
id          | Indonesian           | hunspell-id       | hunspell/id_ID.dic
is          | Icelandic            | hunspell-is       | hunspell/is_IS.dic
it          | Italian              | witalian          | dict/italian
kmr         | Kurmanji             | hunspell-kmr      | hunspell/kmr_Latn.dic
lt          | Lithuanian           | hunspell-lt       | hunspell/lt_LT.dic
lv          | Latvian              | hunspell-lv       | hunspell/lv_LV.dic
ml          | Malayalam            | hunspell-ml       | hunspell/ml_IN.dic
mn-cyrl     | Mongolian            | hunspell-mn       | hunspell/mn_MN.dic
nb          | Norwegian Bokmål     | wnorwegian        | dict/bokmaal
nl          | Dutch                | wdutch            | dict/dutch
nn          | Norwegian Nynorsk    | wnorwegian        | dict/nynorsk
oc          | Occitan              | hunspell-oc       | hunspell/oc_FR.dic
pl          | Polish               | wpolish           | dict/polish
pt          | Portuguese           | wportuguese       | dict/portuguese
ro          | Romanian             | hunspell-ro       | hunspell/ro_RO.dic
ru          | Russian              | hunspell-ru       | hunspell/ru_RU.dic
sh-cyrl     | Serbo-Croatian       | hunspell-sr       | hunspell/sr_RS.dic
sh-latn     | Serbian, Latin       | hunspell-sr       | hunspell/sr_Latn_RS.dic
sk          | Slovak               | hunspell-sk       | hunspell/sk_SK.dic
sl          | Slovenian            | hunspell-sl       | hunspell/sl_SI.dic
sr-cyrl     | Serbian, Cyrillic    | hunspell-sr       | hunspell/sr_RS.dic
sv          | Swedish              | wswedish          | dict/swedish
te          | Telugu               | hunspell-te       | hunspell/te_IN.dic
th          | Thai                 | hunspell-th       | hunspell/th_TH.dic
tr          | Turkish              | hunspell-tr       | hunspell/tr_TR.dic
uk          | Ukrainian            | wukrainian        | dict/ukrainian
"""

# The languages whose published exceptions are many enough for a row.
WITH_EXCEPTIONS = ("af", "ca", "ga", "hsb", "id", "nl", "pl", "ru", "sh-latn", "sr-cyrl")

# Upper-case letters of Turkish whose small letters are not those of other languages.
TURKISH = str.maketrans({"I": "ı", "İ": "i"})

LONGEST = 48  # letters of a word, by patgen


class WordList:
    """One word list: its key, its name, the tag of the patterns that go with it, the package and path of its file, what reads it where
    its hyphens are marked by hand, and whether all its words are taken, however many they are."""

    def __init__(self, key, name, tag, package, path, read=None, is_whole=False):
        self.key, self.name, self.tag, self.package, self.path = key, name, tag, package, path
        self.read, self.is_whole = read, is_whole

    @property
    def by_hand(self):
        return self.read is not None

    def packages(self):
        """The packages that it needs, each with a file of it."""
        patterns = next(package for package, tags in PATTERN_PACKAGES.items() if self.tag in tags.split())
        return {self.package: self.path, patterns: f"{PATTERNS}/txt/hyph-{self.tag}.pat.txt"}


def machine_marked():
    """The lists that are marked by published patterns."""
    rows = [[cell.strip() for cell in row.split("|")] for row in LANGUAGES.strip().split("\n")]
    return [WordList(tag, name, tag, package, "usr/share/" + path) for tag, name, package, path in rows]


def hand_marked():
    """The lists whose hyphens somebody marked by hand."""
    names = {it.tag: it.name for it in machine_marked()} | {"hsb": "Upper Sorbian"}
    found = []
    for tag in WITH_EXCEPTIONS:
        package = next(package for package, tags in PATTERN_PACKAGES.items() if tag in tags.split())
        path = f"{PATTERNS}/txt/hyph-{tag}.hyp.txt"
        found.append(WordList(f"{tag}-exceptions", f"{names[tag]}, exceptions", tag, package, path, exceptions))
    found.append(WordList("tugboat", "English, TUGboat's exceptions", "en-us", "texlive-base", EXCEPTIONS, tex_exceptions))
    found.append(WordList("webster", "English, Webster of 1913", "en-us", "dict-gcide", WEBSTER, webster))
    found.append(WordList("compounds", "Norwegian, compounds", "nb", "norwegian (source)", NORWEGIAN, compounds))
    found.append(WordList("compounds-all", "Norwegian, compounds, all", "nb", "norwegian (source)", NORWEGIAN, compounds, is_whole=True))
    return found


class Packages:
    """Files of packages: those unpacked in a folder first, and then those that are installed."""

    def __init__(self, folder):
        self.folder = folder

    def find(self, path):
        """The path of a file of a package, or none."""
        places = (os.path.join(self.folder, path), "/" + path)
        return next((place for place in places if os.path.exists(place)), None)

    def names(self, folder, ending):
        """The names of the files of a folder of packages that end so."""
        places = (os.path.join(place, folder) for place in (self.folder, "/"))
        return sorted({name for place in places if os.path.isdir(place) for name in os.listdir(place) if name.endswith(ending)})

    def fetch(self, package):
        """Downloads a package and unpacks what is wanted of it, without installing it; whether it could be had."""
        os.makedirs(self.folder, exist_ok=True)
        with tempfile.TemporaryDirectory() as place:
            os.chmod(place, 0o755)
            subprocess.run(["apt-get", "download", "-q", package], cwd=place, check=False, stdout=subprocess.DEVNULL, stderr=subprocess.DEVNULL)
            names = os.listdir(place)
            if not names:
                return False
            deb = os.path.join(place, names[0])
            version = subprocess.run(["dpkg-deb", "-f", deb, "Version"], check=True, capture_output=True).stdout
            with subprocess.Popen(["dpkg-deb", "--fsys-tarfile", deb], stdout=subprocess.PIPE) as opened:
                with tarfile.open(fileobj=opened.stdout, mode="r|") as members:
                    for member in members:
                        if WANTED.match(member.name.removeprefix("./")) and not member.isdir():
                            members.extract(member, self.folder)
            with open(self.note(package), "wb") as file:
                file.write(version)
        return True

    def note(self, package):
        """The path of the file that has the version of a package that was fetched."""
        return os.path.join(self.folder, package + ".version")

    def version(self, package, path):
        """The version of the package that a file is from."""
        noted = self.note(package)
        if os.path.exists(noted) and os.path.exists(os.path.join(self.folder, path)):
            with open(noted, encoding="ascii") as file:
                return file.read().strip()
        if path == NORWEGIAN:
            return "2.2"
        asked = subprocess.run(["dpkg-query", "-W", "-f", "${Version}", package], capture_output=True, check=False)
        return asked.stdout.decode() or "unknown"


def text_of(path):
    """A text in UTF-8 or, where it is none, in ISO 8859-1."""
    with open(path, "rb") as file:
        content = file.read()
    try:
        return content.decode()
    except UnicodeDecodeError:
        return content.decode("iso8859-1")


def hunspell_words(path):
    """The words of a hunspell file, as far as the flags behind a slash, in the encoding that its .aff names."""
    with open(os.path.splitext(path)[0] + ".aff", "rb") as file:
        named = re.search(rb"^(?:\xef\xbb\xbf)?SET\s+(\S+)", file.read(), re.MULTILINE)
    encoding = named.group(1).decode().replace("microsoft-cp", "cp") if named else "iso8859-1"
    with open(path, encoding=encoding, errors="replace") as file:
        next(file)
        for line in file:
            word = re.split(r"(?<!\\)/|\t|\s+[a-z]{2}:", line, maxsplit=1)[0]
            yield word.replace("\\/", "/").strip()


def plain_words(path):
    """The words of a file, without hyphens that are marked."""
    return hunspell_words(path) if path.endswith(".dic") else iter(text_of(path).split("\n"))


def exceptions(path):
    """The words of a list of exceptions of hyph-utf8."""
    return text_of(path).split()


def tex_exceptions(path):
    """The words of \\hyphenation{..} in a TeX file."""
    text = re.sub(r"%.*", "", text_of(path))
    return [word for group in re.findall(r"\\hyphenation\{(.*?)\}", text, re.DOTALL) for word in group.split()]


def webster(path):
    """The headwords of Webster's dictionary that are cut into syllables: `*`, `"` and a grave accent stand between them."""
    with gzip.open(path, "rt", encoding="utf-8", errors="replace") as file:
        for line in file:
            found = re.match(r"([A-Z][a-z]+) \\([^\\]+)\\", line)
            if not found:
                continue
            word = re.sub("[*\"`]+", "-", found.group(2)).strip("-").lower()
            if "-" in word and word.replace("-", "") == found.group(1).lower():
                yield word


def compounds(path):
    """The words of the Norwegian list whose compounds are marked by `=`. Those with `-` or `"` have a hyphen or another spelling."""
    with tarfile.open(path) as members:
        name = next(name for name in members.getnames() if name.endswith("/norsk.words"))
        lines = members.extractfile(name).read().decode("iso8859-1").split("\n")
    for line in lines:
        word = re.sub(r"(xxxx|yyyy|zyzyzy)$", "", line.split(" ")[0])
        if word and not re.search(r'[#\-"]', word):
            yield word.replace("=", "-")


class Patterns:
    """Published patterns: their lines, letters and minima, and what they make of a word."""

    def __init__(self, packages, tag):
        self.lines = text_of(packages.find(f"{PATTERNS}/txt/hyph-{tag}.pat.txt")).split()
        self.letters = sorted(set("".join(self.lines)) - set(".0123456789"))
        head = text_of(packages.find(f"{PATTERNS}/tex/hyph-{tag}.tex")).split("\\patterns")[0]
        minima = {}
        for kind in ("typesetting", "generation"):
            found = re.search(kind + r":\s*\n%\s*left:\s*(\d+).*\n%\s*right:\s*(\d+)", head)
            if found:
                minima.setdefault("wanted", (int(found.group(1)), int(found.group(2))))
        self.minima = minima["wanted"]
        self.values = {}
        for line in self.lines:
            string = re.sub(r"\d", "", line)
            dots = [int(value or 0) for value in re.split(r"\D", line)]
            known = self.values.get(string, [0] * len(dots))
            self.values[string] = [max(pair) for pair in zip(known, dots)]
        self.longest = max(map(len, self.values))

    def entries(self):
        """How many values there are, each at one place of a pattern."""
        return sum(value > 0 for dots in self.values.values() for value in dots)

    def pieces(self, word):
        """The pieces of a word between its breaks."""
        signs = f".{word}."
        best = [0] * (len(signs) + 1)
        for start in range(len(signs)):
            for end in range(start + 1, min(len(signs), start + self.longest) + 1):
                for dot, value in enumerate(self.values.get(signs[start:end], ())):
                    best[start + dot] = max(best[start + dot], value)
        left, right = self.minima
        ends = [0, *(at for at in range(left, len(word) - right + 1) if best[at + 1] % 2), len(word)]
        return [word[start:end] for start, end in zip(ends, ends[1:])]

    def missed_mark(self):
        """The mark of a hyphen, which is no letter."""
        return hyphenation.Table(self.translate().encode()).missed.decode()

    def translate(self):
        """The translate file: minima, marks, and each letter with its capital."""
        return hyphenation.drafted(self.letters, *self.minima).decode()


def every_tag(packages):
    """The tags of all pattern files that are there."""
    return [name[len("hyph-") : -len(".pat.txt")] for name in packages.names(f"{PATTERNS}/txt", ".pat.txt")]


def drawn_words(patterns, tag, count):
    """Words put together from the strings of patterns, always the same ones for a tag."""
    draw, strings = random.Random(tag), [string.strip(".") for string in sorted(patterns.values)]
    return ["".join(draw.choices(strings, k=draw.randint(1, 4)))[:LONGEST] for _ in range(count)]


def kept_words(words, patterns, tag):
    """The words in small letters, each once, whose letters the patterns know and that take part; how many are not kept for which
    reason; and in how many of them the patterns lack which letter."""
    known, least = set(patterns.letters), sum(patterns.minima)
    kept, left_out, lacking = {}, {"letters": 0, "long": 0, "short": 0, "twice": 0}, collections.Counter()
    for word in words:
        if not word:
            continue
        word = (word.translate(TURKISH) if tag == "tr" else word).lower()
        if not known.issuperset(word):
            word = unicodedata.normalize("NFC", word)
        if not known.issuperset(word):
            left_out["letters"] += 1
            lacking.update(letter for letter in set(word) - known if unicodedata.category(letter)[0] in "LM")
        elif len(word) > LONGEST:
            left_out["long"] += 1
        elif len(word) < least:
            left_out["short"] += 1
        elif word in kept:
            left_out["twice"] += 1
        else:
            kept[word] = None
    return list(kept), left_out, dict(lacking.most_common(5))


def kept_marked(words, patterns):
    """The same for words with their hyphens marked; of words that are spelled alike the first is kept."""
    spelled = {}
    for word in words:
        spelled.setdefault(word.lower().replace("-", ""), word.lower())
    kept, left_out, lacking = kept_words(spelled, patterns, "")
    return [spelled[word] for word in kept if word in spelled], left_out, lacking
