"""Tables: text, TSV and JSON."""

import io
import json
import unittest

from ec_history.tables import Table


def written(table: Table, form: str) -> str:
    output = io.StringIO()
    table.write(output, form)
    return output.getvalue()


TABLE = Table(
    ["what", "holds", "count", "parts"],
    [["a\tb\\c\nd", True, None, ["a", 1]], ["é", False, 12, []]],
    {"text": ("parts",), "tsv": ("parts",)},
)


class Tables(unittest.TestCase):
    def test_text_stands_in_columns(self) -> None:
        table = Table(["a", "b"], [["long", 1], ["x", None], ["", "end"]])
        self.assertEqual(written(table, "text"), "long  1\nx\n      end\n")

    def test_tsv_escapes_what_would_cut_a_row(self) -> None:
        rows = written(TABLE, "tsv").splitlines()
        self.assertEqual(rows[0], "what\tholds\tcount")
        self.assertEqual(rows[1], "a\\tb\\\\c\\nd\tyes\t")
        self.assertEqual(rows[2], "é\tno\t12")

    def test_json_keeps_types_and_hides_nothing(self) -> None:
        first, second = json.loads(written(TABLE, "json"))
        self.assertEqual(first["what"], "a\tb\\c\nd")
        self.assertEqual((first["holds"], first["count"]), (True, None))
        self.assertEqual((second["parts"], second["count"]), ([], 12))

    def test_no_rows(self) -> None:
        empty = Table(["a"], [])
        self.assertEqual(written(empty, "text"), "")
        self.assertEqual(written(empty, "tsv"), "a\n")
        self.assertEqual(json.loads(written(empty, "json")), [])


if __name__ == "__main__":
    unittest.main()
