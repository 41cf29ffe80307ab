# What scripts here share that time calls in a program of its own, apart from the repository. Such a script sets `root`, the top of the checkout,
# and `work`, a folder that it lets go at its end, and then reads this file by `.`; it runs nothing by itself.

# take_crates NAME..   copies these crates, and all crates of the repository that they stand on, into "$work/crates", with what was built of
#                      them, and lists them in "$work/crates.txt"; a crate that is there already is not copied again
take_crates() {
    local name below
    mkdir -p "$work/crates"
    cp "$root/HANDLES" "$work/"
    for name in "$@"; do
        below=$(sed -n "s/^$name://p" "$root/crates.txt")
        grep -qE "^$name:" "$root/crates.txt" || continue # one of the kit
        [ -d "$work/crates/$name" ] && continue
        # shellcheck disable=SC2086
        take_crates $below
        (cd "$root/crates" && tar cf - --exclude=must-fail --exclude=rested --exclude=incremental "$name") | tar xf - -C "$work/crates"
        grep -E "^$name:" "$root/crates.txt" >>"$work/crates.txt"
    done
}

# write_sites FILE     writes the lemma, of which such a program has need, that an operator at its shapes has the inputs' shapes that were given
write_sites() {
    cat >"$1" <<'ANTT'
-- The inputs' shapes of an operator at its shapes are those that were given.
use Rattle.std.proofs.Common.{◌≡◌, List, refl, ap}
use Rattle.std.specs.Prelude.{Result, Ok, Err}
use Rattle.std.specs.Result.{result_map_both}
use Rattle.sz_cells.specs.Extent.{Extent}
use Rattle.sz_spec.specs.declared.op.Op.{Op}
use Rattle.sz_spec.specs.declared.shapes.ShapeFault.{ShapeFault}
use Rattle.sz_spec.specs.Shapes.{Site, shape_of, site_of}

placed : (op : Op) (ins : List Extent) (r : Result Extent ShapeFault) (a : Site)
    → result_map_both (λ out. record { op = op; ins = ins; out = out }) (λ f. f) r ≡ Ok a → a.ins ≡ ins
placed op ins (Ok e) a h = (cc)
placed op ins (Err f) a h = (cc)

pub given_ins : (op : Op) (ins : List Extent) (a : Site) → site_of op ins ≡ Ok a → a.ins ≡ ins
given_ins op ins a h = placed op ins (shape_of op ins) a h
ANTT
}
