#!/bin/sh
# spdx.sh NAME COMMIT TIME LOCK: the SPDX list (2.3, tag and value) of the files in the present folder, a release NAME made of COMMIT at
# TIME (YYYY-MM-DDThh:mm:ssZ), on standard output: the release, what of others is in it (the libraries of splicerd by its Cargo.lock,
# LOCK), and each file with its sums. Called by dist.sh.
set -eu
. "$(dirname "$0")/words.sh"
[ $# -eq 4 ] || refuse 'usage: spdx.sh NAME COMMIT TIME LOCK'
needs sha1sum sha256sum
name=$1 commit=$2 time=$3 lock=$4

# document: what is said of all, what of others is in it, and last the release, whose the files behind it are
document() {
    cat <<END_OF_HEAD
SPDXVersion: SPDX-2.3
DataLicense: CC0-1.0
SPDXID: SPDXRef-DOCUMENT
DocumentName: $name
DocumentNamespace: urn:splicer:$name:$commit
Creator: Tool: tools/spdx.sh
Created: $time

PackageName: rust-std
SPDXID: SPDXRef-RustStd
PackageVersion: $(rustc --version | cut -d ' ' -f 2)
PackageDownloadLocation: NOASSERTION
FilesAnalyzed: false
PackageLicenseConcluded: MIT OR Apache-2.0
PackageLicenseDeclared: MIT OR Apache-2.0
PackageCopyrightText: NOASSERTION
PackageComment: <text>Linked into bin/desk, bin/splicerd and bin/adserver.</text>
Relationship: SPDXRef-Release CONTAINS SPDXRef-RustStd

$(libraries)

PackageName: rattle-kit-library
SPDXID: SPDXRef-Kit
PackageVersion: $(rt version)
PackageDownloadLocation: NOASSERTION
FilesAnalyzed: false
PackageLicenseConcluded: NOASSERTION
PackageLicenseDeclared: NOASSERTION
PackageCopyrightText: NOASSERTION
PackageComment: <text>The proof kit's library, as far as its functions are compiled into lib/*.a and the proved programs.</text>
Relationship: SPDXRef-Release CONTAINS SPDXRef-Kit

PackageName: $name
SPDXID: SPDXRef-Release
PackageVersion: $(echo "$name" | cut -d - -f 2)
PackageDownloadLocation: NOASSERTION
FilesAnalyzed: true
PackageVerificationCode: $(verified) (excludes: ./splicer.spdx, ./MANIFEST)
PackageLicenseConcluded: LicenseRef-Owner
PackageLicenseInfoFromFiles: LicenseRef-Owner
PackageLicenseDeclared: LicenseRef-Owner
PackageCopyrightText: NOASSERTION
Relationship: SPDXRef-DOCUMENT DESCRIBES SPDXRef-Release

END_OF_HEAD
}

# libraries: those that the lock has with a sum: what Debian packages of others. Its own licence stands in each one's Cargo.toml
libraries() {
    awk '
        { gsub(/"/, "") }
        /^name = / { name = $3 }
        /^version = / { version = $3 }
        /^checksum = / { print name, version }
    ' "$lock" | while read -r crate version; do
        its=$(sed -n 's/^license = "\(.*\)"/\1/p' "/usr/share/cargo/registry/$crate-$version/Cargo.toml" | sed 's,/, OR ,')
        echo "PackageName: $crate"
        echo "SPDXID: SPDXRef-Crate-$(echo "$crate" | tr _ -)"
        echo "PackageVersion: $version"
        echo 'PackageDownloadLocation: NOASSERTION'
        echo 'FilesAnalyzed: false'
        echo "PackageLicenseConcluded: ${its:-NOASSERTION}"
        echo "PackageLicenseDeclared: ${its:-NOASSERTION}"
        echo 'PackageCopyrightText: NOASSERTION'
        echo 'PackageComment: <text>A library, as far as it is linked into bin/splicerd and bin/adserver.</text>'
        echo "Relationship: SPDXRef-Release CONTAINS SPDXRef-Crate-$(echo "$crate" | tr _ -)"
        echo
    done
}

# verified: SPDX's sum over the sums of all files
verified() {
    files | xargs sha1sum | cut -d ' ' -f 1 | LC_ALL=C sort | tr -d '\n' | sha1sum | cut -d ' ' -f 1
}

# files: those of the folder but MANIFEST, which has this list's own sum
files() {
    find . -type f ! -name MANIFEST ! -name splicer.spdx | LC_ALL=C sort
}

# listed: each file with its sums
listed() {
    files | xargs sha1sum >"$sums.1"
    files | xargs sha256sum >"$sums.256"
    paste -d ' ' "$sums.1" "$sums.256" | awk '{
        print "FileName: " $2
        print "SPDXID: SPDXRef-File-" NR
        print "FileChecksum: SHA1: " $1
        print "FileChecksum: SHA256: " $3
        linked = $2 == "./bin/desk" || $2 == "./bin/splicerd" || $2 == "./bin/adserver"
        print "LicenseConcluded: " (linked ? "LicenseRef-Owner AND (MIT OR Apache-2.0)" : "LicenseRef-Owner")
        print "LicenseInfoInFile: NOASSERTION"
        print "FileCopyrightText: NOASSERTION\n"
    }'
}

# owner: the licence that is the owner's to give
owner() {
    echo 'LicenseID: LicenseRef-Owner'
    echo 'LicenseName: the licence of the owner'
    echo "ExtractedText: <text>$(sed -n '/^Licence: /,/^$/p' NOTICE)</text>"
}

sums=$(mktemp)
trap 'rm -f "$sums" "$sums.1" "$sums.256"' EXIT
document
listed
owner
