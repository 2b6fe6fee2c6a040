# For the benchmarks beside it, which read this file first: goes to the top of the repository, builds the program,
# and makes a folder for texts, which goes when the benchmark ends.
set -eu
cd "$(dirname "$0")/.."
make --no-print-directory build
folder=$(mktemp -d)
trap 'rm -rf "$folder"' EXIT
