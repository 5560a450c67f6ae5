"""A small statement on constant tables, as that of crates/constants, for tests."""

from statement import LINE, STATEMENT, THEOREM

TABLE = """
abbrev pub Table{n} : (ℕ → Type 0) → Type 0
Table{n} P = (κs : Lifetimes.Lfts 0) (a : World.ArgsD of_{n}.signature κs)
    (r : World.ResD of_{n}.signature κs) (s : Clauses.AtExit ended_{n} κs)
    → reads_{n}.Learnt κs a r s → P r
"""


def constants(crate, tables):
    """A crate's `proofs/Constants.antt`, of functions by number."""
    uses = "".join(
        f"use Rattle.{crate}.{home}.{'.'.join(path)}{below} as {alias}_{n}\n"
        for n, (_, *path) in tables.items()
        for home, below, alias in (("specs.contracts", "", "of"), ("proofs", ".Reads", "reads")))
    return f"-- what is learnt\n{uses}" + "".join(TABLE.format(n=n) for n in tables)


def state(crates, functions):
    """Writes a statement that names these functions, as Table0 and so on, and the
    theorem."""
    tables, uses, fields = {}, "", ""
    for n, function in enumerate(functions):
        crate = function.split("::")[0]
        tables.setdefault(crate, {})[n] = function.split("::")
        uses += f"use Rattle.{crate}.proofs.Constants.{{Table{n}}}\n"
        fields += f"  -- {function}\n"
        fields += f"  pub table_{n} : Table{n} (λ r. r ≡ worked_out {n})\n"
    files = {f"{crate}/proofs/Constants.antt": constants(crate, of)
             for crate, of in tables.items()}
    files[STATEMENT] = f"{uses}\npub record EveryTable : Type 0 where\n{fields}"
    files[THEOREM] = f"{LINE}\nevery_table = record {{ }}\n"
    for file, text in files.items():
        (crates / file).parent.mkdir(parents=True, exist_ok=True)
        (crates / file).write_text(text)
