# Sourced by run, bench, growth, through and sample: finds what the comparison needs, builds both sides.
here=$(cd "$(dirname "${BASH_SOURCE[0]}")" && pwd)
root=$(dirname "$here")
modules="align sort footprint regionmap settle freemap accounting plan layout listing"

lacking() {
  echo "$1"
  echo "not compared: $modules"
  exit 0
}

command -v cargo >/dev/null 2>&1 || lacking "cargo is not at hand"
command -v rt >/dev/null 2>&1 || lacking "the Rattle kit is not at hand"
[ -d "$root/../shared/docs/src/crates" ] || lacking "the Rust sources are not at hand: ../shared/docs/src is missing"

cd "$root" || exit 2
mkdir -p target/staticlib
for name in exports fundravai plan_exports; do
  if ! log=$(cd "crates/$name" && rt lib 2>&1); then
    echo "$log"
    exit 2
  fi
  cp "crates/$name/out/lib$name.a" target/staticlib/ || exit 2
done
if ! log=$(cd crates/planner && rt run 2>&1 </dev/null); then
  echo "$log"
  exit 2
fi
cp crates/planner/out/planner target/ || exit 2
export EXPORTS="$root/target/staticlib" PROGRAM="$root/target/planner"
# The plan is called by way of examples/rust, which looks for libfundravai.a there.
export FUNDRAVAI="$EXPORTS"
cd "$here" || exit 2
if ! cargo build --release --offline --quiet; then
  exit 2
fi
