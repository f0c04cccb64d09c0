# For tests that want a tool that may not be there; they source it at the top of the repository.

# missing NAME TOOL: what is said where a tool is not there. Where CI is set, nothing is skipped
missing() {
    if [ -n "${CI:-}" ]; then echo "FAILED $1: no $2 on the PATH"; else echo "skipped $1: no $2 on the PATH"; fi
}
