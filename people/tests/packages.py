"""Real schemas and objects, out of Debian's packages, fetched by `apt-get download` when a test first needs them.

A folder that SSABENCH_PACKAGES names, or /usr/share/gocode where the packages are installed, is taken as it is. `root()` gives the
folder of the packages' files, or raises `NotHere` with a sentence that says what can't be had.
"""
import functools
import os
import subprocess
import tempfile

NAMES = (
    "golang-k8s-api-dev",
    "golang-k8s-client-go-dev",
    "golang-k8s-kubectl-dev",
    "golang-k8s-kube-openapi-dev",
    "golang-k8s-sigs-structured-merge-diff-dev",
    "ceph-mgr-rook",
)
MORE = (
    "golang-k8s-apiextensions-apiserver-dev",
    "golang-k8s-apimachinery-dev",
    "golang-github-openshift-api-dev",
    "golang-github-cue-lang-cue-dev",
)
SUITES = ("trixie", "sid")
GROUPS = (  # packages that are fetched together, of which suites (None: the machine's own), and a file of theirs
    (NAMES, (None, *SUITES), "usr/share/gocode/src/k8s.io/api/testdata/HEAD"),
    (MORE, (None, *SUITES), "usr/share/gocode/src/github.com/openshift/api/config/v1"),
    (("python3-magnum",), ("bookworm",), "usr/lib/python3/dist-packages/magnum/drivers"),
)


class NotHere(Exception):
    """The packages can't be had here."""


def folder():
    return os.environ.get("SSABENCH_PACKAGES") or os.path.join(
        os.environ.get("XDG_CACHE_HOME") or os.path.expanduser("~/.cache"), "kubectl-ssabench", "packages"
    )


@functools.cache
def root():
    """The folder that has the packages' `usr`."""
    for there in (folder(), "/"):
        if all(os.path.isdir(os.path.join(there, probe)) for _, _, probe in GROUPS):
            return there
    missing = [group for group in GROUPS if not os.path.isdir(os.path.join(folder(), group[2]))]
    names = ", ".join(name for names, _, _ in missing for name in names)
    sentence = f"real kinds were not tried: {names} can't be had by apt-get download"
    if os.environ.get("SSABENCH_NO_PACKAGES"):
        raise NotHere(sentence + " (SSABENCH_NO_PACKAGES is set)")
    try:
        for names, suites, _ in missing:
            _fetch(folder(), names, suites=suites)
    except (OSError, subprocess.SubprocessError) as fault:
        raise NotHere(f"{sentence} ({fault})") from fault
    return folder()


def _apt(place, *words, cwd=None):
    environment = {**os.environ, "APT_CONFIG": os.path.join(place, "apt.conf")} if place else os.environ
    ran = subprocess.run(
        ["apt-get", "-q", *words], cwd=cwd, env=environment, check=True, timeout=300, stdout=subprocess.PIPE, stderr=subprocess.DEVNULL, text=True
    )
    return ran.stdout


def _fetch(target, names=NAMES, with_needed=(), suites=(None, *SUITES)):
    """Downloads packages, by the machine's own lists, else by lists of a later suite kept apart, and unpacks them. Of
    `with_needed` the Go packages that they stand on come along."""
    os.makedirs(target, exist_ok=True)
    with tempfile.TemporaryDirectory(prefix="ssabench-apt-") as place:
        for suite in suites:
            lists = place if suite else None
            try:
                if suite:
                    _other_lists(place, suite)
                    _apt(place, "update")
                _apt(lists, "download", *names, *_needed(place, lists, with_needed), cwd=target)
                break
            except subprocess.SubprocessError as fault:
                last = fault
        else:
            raise last
    for name in os.listdir(target):
        if name.endswith(".deb"):
            subprocess.run(["dpkg-deb", "-x", name, "."], cwd=target, check=True)
            os.remove(os.path.join(target, name))


def _needed(place, lists, names):
    """The Go packages that would be installed with these on a machine that has none."""
    if not names:
        return []
    nothing = os.path.join(place, "status")
    open(nothing, "w", encoding="utf-8").close()
    told = _apt(lists, "-o", f"Dir::State::status={nothing}", "--no-install-recommends", "-s", "install", *names)
    there = [line.split()[1] for line in told.splitlines() if line.startswith("Inst ")]
    return [name for name in there if name.startswith("golang-") and name.endswith("-dev")]


def with_needed(target, names, more=()):
    """Packages with the Go packages that they stand on, and some more without, unpacked in a folder."""
    _fetch(target, more, names)


def _other_lists(place, suite):
    """Lists of a suite that the machine doesn't use, in a folder of their own: nothing of the machine's is changed."""
    for part in ("lists/partial", "cache/archives/partial"):
        os.makedirs(os.path.join(place, part), exist_ok=True)
    keys = "/usr/share/keyrings/debian-archive-keyring.gpg"
    with open(os.path.join(place, "sources.list"), "w", encoding="utf-8") as file:
        file.write(f"deb [signed-by={keys}] http://deb.debian.org/debian {suite} main\n")
    with open(os.path.join(place, "apt.conf"), "w", encoding="utf-8") as file:
        file.write(
            f'Dir::Etc::sourcelist "{place}/sources.list";\nDir::Etc::sourceparts "-";\n'
            f'Dir::State::lists "{place}/lists";\nDir::Cache "{place}/cache";\n'
        )


def gocode(*parts):
    return os.path.join(root(), "usr/share/gocode/src", *parts)
