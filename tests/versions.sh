# The version is that of the file VERSION everywhere: in the header, in the crate, in Cargo.lock, and at the top of the changelog.
version=$(cat VERSION)
if [[ $version =~ ^([0-9]+)\.([0-9]+)\.([0-9]+)$ ]]; then
    echo "ok VERSION is $version"
else
    echo "FAILED VERSION is '$version', and not three numbers"
    exit 0
fi
numbers=("${BASH_REMATCH[@]:1}")

# says WHAT FOUND WANTED: a place says what it should
says() { if [ "$2" = "$3" ]; then echo "ok $1 says $3"; else echo "FAILED $1 says '$2', and VERSION $3"; fi; }

# defined NAME: what the header defines it as
defined() { sed -n "s/^#define $1 //p" hosts/include/thawribbon.h; }

says 'the header, in text,' "$(defined THAWRIBBON_VERSION)" "\"$version\""
says 'the header, in its first number,' "$(defined THAWRIBBON_VERSION_MAJOR)" "${numbers[0]}"
says 'the header, in its second number,' "$(defined THAWRIBBON_VERSION_MINOR)" "${numbers[1]}"
says 'the header, in its third number,' "$(defined THAWRIBBON_VERSION_PATCH)" "${numbers[2]}"
says 'the crate' "$(sed -n 's/^version = "\(.*\)"$/\1/p' hosts/thawribbon/Cargo.toml)" "$version"
says 'Cargo.lock' "$(sed -n '/^name = "thawribbon"$/{n;s/^version = "\(.*\)"$/\1/p;}' hosts/Cargo.lock)" "$version"
says 'the top of the changelog' "$(sed -n 's/^## //p' CHANGELOG.md | head -n 1)" "$version"
