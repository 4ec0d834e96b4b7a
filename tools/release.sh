#!/usr/bin/env bash
# release.sh OUT [KEY]: packs pkcs1-proved-VERSION.tar.gz into this folder, from what is committed: what `make` and cargo
# need, the sources of the proofs, the documents for users, and a list of its parts (sbom.py). Beside it the library as
# one file, ..-one-file.tar.gz, from what the decoders are fuzzed, ..-corpus.tar.gz, and the hash of each. With a private
# KEY of ssh-keygen also the signature of each, and in VERIFY.txt the commands that verify them.
# Two checkouts of a commit give the same bytes. A tree with changes that aren't committed is refused, and one whose
# generated files are made of other sources.
set -eu
. "$(dirname "$0")/shell.sh"
failure=2
contents=(
    Makefile CMakeLists.txt README.md CHANGELOG.md SECURITY.md LICENSE-APACHE LICENSE-MIT
    docs/{USING,PROMISES,DECISIONS,RELEASE}.md
    ffi/{lib,examples,tests/fuzz} ffi/tests/{check.sh,check_abi.sh,abi,keys,test.h,{test,rows,large,lengths,states,interrupt,freestanding}.c} rust :!rust/{check,check.sh,preconditions.py} tools/erase/{README.md,{calls,compare,erase,forms,tokens}.py}
    docs/CLAIM.md
    crates/pkcs1_tool/{run_built,copies,refuse_memory,all_rows}.sh
    crates/pkcs1_tool/{refuse_memory.c,rows,stdin,stdout,pkcs1_tool.1}
    crates/pkcs1_vectors/stdin
    crates.txt ffi/proof :!ffi/proof/{build.sh,link_proved.sh,check_contracts.py,planted.py,mistakes.py,seam/mistakes.py}
    tools/{fresh,debian_rust,generate,install}.sh tools/generate
    tools/{shell.sh,platforms.sh,other_platforms.sh,wasi.mjs}
)

# readme: makes README that of the release: without what is for a clone, and lines of tables that lead to what isn't
# packed, and with RELEASE.
readme() {
    perl -0pi -e '
        s/<!-- release -->\n/`cat docs\/RELEASE.md`/e;
        s/<!-- clone -->.*?<!-- end -->\n?//sg;
        s{\]\(\.\./}{](}g;
        s{^\|.*\]\((?!https?:)([^)#]+).*\n}{-e $1 ? $& : ""}gme' README.md
    rm docs/RELEASE.md
}
# pack NAME: packs the folder of this name, and writes its hash and signature.
pack() {
    tar c --format=ustar --sort=name --owner=0 --group=0 --numeric-owner --mode=u=rwX,go=rX --mtime="@$date" "$1" |
        gzip -9n > packed
    [ "$(stat -c %s packed)" -lt 2000000 ] || stop "a release has less than 2000000 bytes, and this $(stat -c %s packed)"
    mv packed "$out/$1.tar.gz"
    (cd "$out" && sha256sum "$1.tar.gz" > "$1.tar.gz.sha256")
    [ -z "$key" ] || {
        ssh-keygen -q -Y sign -f "$key" -n file < "$out/$1.tar.gz" > "$out/$1.tar.gz.sig"
        echo "    ssh-keygen -Y verify -f SIGNERS -I pkcs1-proved -n file -s $1.tar.gz.sig < $1.tar.gz" >> "$out/VERIFY.txt"
    }
    echo "$out/$1.tar.gz"
}
{ [ $# -gt 0 ] && [ $# -lt 3 ] && [ -n "$1" ]; } || stop "usage: tools/release.sh OUT [KEY]"
out=$(realpath -m "$1")
key=${2:+$(realpath "$2")}
[ -z "$key" ] || [ -r "$key" ] || stop "there is no key $2"
cd "$(dirname "$0")/.."
[ -z "$(git status --porcelain)" ] || stop "there are changes that aren't committed: git status tells which"
needs python3 ${key:+ssh-keygen}
tools/fresh.sh || exit 2
commit=$(git rev-parse HEAD)
date=$(git log -1 --format=%ct)
version=$(sed -n 's/^#define PKCS1_VERSION_[A-Z]* //p' ffi/lib/include/pkcs1.h | paste -s -d .)
name=pkcs1-proved-$version
room=$(mktemp -d)
trap 'rm -rf "$room"' EXIT
export LC_ALL=C

git archive --prefix="$name/" HEAD "${contents[@]}" crates/*/{src,specs,proofs} | tar x -C "$room"
tools/sbom.py "$version" "$commit" "$date" > "$room/$name/SBOM.spdx.json"
cd "$room/$name"
sed -i "s/^sources: .*/&\ncommit: $commit/" ffi/lib/generated/PROVENANCE
readme
# A link to what isn't packed is its text alone.
for document in *.md docs/*.md rust/README.md tools/erase/README.md; do
    FOLDER=$(dirname "$document") perl -pi -e \
        's{\[([^][]*)\]\((?!https?:)([^)#]+)(#[^)]*)?\)}{-e "$ENV{FOLDER}/$2" ? $& : $1}ge' "$document"
done
# shellcheck disable=SC2094 # what is written is not among what is read
find . -type f ! -name SHA256SUMS | sed 's,^\./,,' | sort | tr '\n' '\0' | xargs -0 sha256sum > SHA256SUMS
cd "$room"
mkdir -p "$out" "$name-one-file"
[ -z "$key" ] || cat > "$out/VERIFY.txt" << 'END'
Each archive is signed. In these commands SIGNERS is a file of one line, with the word pkcs1-proved and the maintainers'
public key. Take the key from another place than the archives. ssh-keygen comes with OpenSSH.

END
"$name/ffi/tests/fuzz/corpus.py" "$name-corpus"
cp "$name"/{LICENSE-APACHE,LICENSE-MIT,ffi/lib/{copyright,include/pkcs1.h,generated/PROVENANCE}} "$name-one-file"
"$name/ffi/lib/amalgamation.sh" "$name/ffi/lib/generated" > "$name-one-file/pkcs1_all.c"
pack "$name"
pack "$name-one-file"
pack "$name-corpus"
