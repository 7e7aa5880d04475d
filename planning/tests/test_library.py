"""The library: studies and their rows, builders of models and scripts, and the examples built again."""
import concurrent.futures
import glob
import json
import os
import unittest

from samples import EXAMPLES, MODEL, PROGRAM, SCRIPT, Folder, example, needs_program

from cloner_planning import ModelBuilder, PlanningError, Rows, ScriptBuilder, Study, Way
from cloner_planning.builder import weights_of
from cloner_planning.library import Row
from cloner_planning.models import parse_model
from cloner_planning.places import Places
from cloner_planning.scripts import parse_script, read_script

try:
    import pandas
except ImportError:
    pandas = None


def tree_of(text):
    """Returns the tree of a model file."""
    places = Places("m", text.encode())
    assert places.fault is None
    return places.data


def built_again(tree):
    """Returns the text of the model that a tree says, by the builder."""
    builder = ModelBuilder(tree["horizon"], tree["lookahead"], tree.get("seed"), tree.get("limit"), tree.get("format"))
    for station in tree["station"]:
        links = [Way(link["to"], link["delay"], link.get("weight")) for link in station.get("link", [])]
        name, stream = station["name"], station.get("stream")
        if station["kind"] == "source":
            builder.source(name, tuple(station["every"]), links, station["jobs"], station.get("class"), stream)
        elif station["kind"] == "server":
            builder.server(name, station["servers"], station["room"], tuple(station["service"]), links,
                           station.get("order"), stream)
        elif station["kind"] == "delay":
            builder.delay(name, tuple(station["hold"]), links, stream)
        elif station["kind"] == "router":
            builder.router(name, station["by"], links, stream)
        else:
            builder.sink(name, stream)
    return builder.text()


def script_again(script):
    """Returns the text of a script, by the builder."""
    builder = ScriptBuilder()
    analyst = "main"
    for one in script.decisions:
        if one.analyst != analyst:
            builder.analyst(one.analyst)
            analyst = one.analyst
        if one.kind == "fork":
            builder.fork(one.new, one.old)
        elif one.kind == "set":
            builder.set(one.clone, one.at, one.station, one.parameter, *one.values)
        elif one.kind == "end":
            builder.end(one.clone, one.at)
        else:
            builder.look(one.clone, one.station)
    return builder.text()


def kiosk():
    """Returns a model by the builder."""
    model = ModelBuilder(horizon=600, lookahead=1)
    model.source("street", (1, 5), [Way("till", 1)])
    model.server("till", 1, 10, (2, 5), [Way("home", 1)])
    model.sink("home")
    return model


class Examples(unittest.TestCase):
    def test_each_model_has_the_same_tree(self):
        paths = glob.glob(os.path.join(EXAMPLES, "*.toml"))
        self.assertGreater(len(paths), 5)
        for path in paths:
            with open(path, encoding="utf-8") as file:
                tree = tree_of(file.read())
            self.assertEqual(tree_of(built_again(tree)), tree, path)

    def test_each_script_has_the_same_decisions(self):
        for path in glob.glob(os.path.join(EXAMPLES, "*.txt")):
            if "watches" in path:
                continue
            script = read_script(path)
            again = parse_script(script_again(script))
            self.assertEqual([one._replace(line=0) for one in again.decisions],
                             [one._replace(line=0) for one in script.decisions], path)


class Builders(unittest.TestCase):
    def test_what_a_model_cannot_say(self):
        for change, part in (
                (lambda model: model.server("desk", 17, 1, (1, 2), [Way("home", 1)]), "servers must be"),
                (lambda model: model.server("desk", 1, 1, (2, 1), [Way("home", 1)]), "service must be"),
                (lambda model: model.server("desk", 1, 1, (1, 2), [Way("none", 1)]), "is no station"),
                (lambda model: model.server("desk", 1, 1, (1, 2), [Way("street", 1)]), "is a source"),
                (lambda model: model.server("desk", 1, 1, (1, 2), [Way("home", 0)]), "delay must be"),
                (lambda model: model.server("desk", 1, 1, (1, 2), []), "desk has no link"),
                (lambda model: model.server("desk", 1, 1, (1, 2), [Way("home", 1)], "class"), "need format=2"),
                (lambda model: model.router("desk", "chance", [Way("home", 1)]), "by must be one of"),
                (lambda model: model.sink("till"), "there is a station till already"),
                (lambda model: model.sink("Till"), "Till is no name"),
                (lambda model: model.delay("desk", (0, 1), [Way("home", 1)] * 17), "may have 16"),
                (lambda model: model.poisson("door", 5000, Way("home", 1)), "cannot be said")):
            model = kiosk()
            with self.assertRaisesRegex(PlanningError, part):
                change(model)
                model.text()
        short = ModelBuilder(horizon=600, lookahead=2)
        short.source("street", (1, 5), [Way("home", 1)])
        short.sink("home")
        with self.assertRaisesRegex(PlanningError, "at least the lookahead, 2"):
            short.text()

    def test_a_script(self):
        script = ScriptBuilder(kiosk())
        script.fork("more")
        script.roster("more", "till", [(120, 2), (480, 1)])
        script.comment("why")
        self.assertEqual(script.text(), "fork more from base\nset more at 120 till servers 2\n"
                                        "set more at 480 till servers 1\n# why\n")
        for change, part in ((lambda: script.fork("more"), "already"),
                             (lambda: script.end("less", 9), "no branch less"),
                             (lambda: script.set("more", 9, "shop", "servers", 2), "refuses this set"),
                             (lambda: script.set("more", 9, "home", "servers", 2), "refuses this set"),
                             (lambda: script.set("more", 600, "till", "servers", 2), "not before the horizon"),
                             (lambda: script.set("more", 9, "till", "speed", 2), "no fork, set"),
                             (lambda: script.set("more", -1, "till", "servers", 2), "no number"),
                             (lambda: script.roster("more", "till", [(9, 1), (9, 2)]), "the times must rise"),
                             (lambda: script.roster("more", "till", [(9, 0)]), "there are 1 to 16 servers")):
            before = script.text()
            with self.assertRaisesRegex(PlanningError, part):
                change()
            self.assertEqual(script.text(), before)

    def test_weights_of_a_mean(self):
        for mean in (1.5, 2, 12, 7.3, 100, 1001):
            passed, rest = weights_of(mean)
            self.assertAlmostEqual((passed + rest) / passed, mean, delta=mean / 500)

    def test_arrivals_that_look_poisson(self):
        model = ModelBuilder(horizon=60000, lookahead=1, limit=65536)
        model.poisson("door", 12, Way("till", 1))
        model.server("till", 1, 100, (5, 13), [Way("home", 1)])
        model.sink("home")
        known = parse_model(model.text())
        self.assertEqual([station.name for station in known.stations],
                         ["door", "door_pick", "door_rest", "till", "home"])
        self.assertEqual([link.weight for link in known.known("door_pick").links], list(weights_of(12)))


class Results(Folder):
    ROWS = Rows([Row(1, "base", "desk", None, "lost", 3), Row(2, "base", "desk", None, "lost", None)])

    def test_forms(self):
        csv = "seed,branch,station,figure,value\n1,base,desk,lost,3\n2,base,desk,lost,\n"
        self.assertEqual(self.ROWS.to_csv(), csv)
        self.assertEqual(json.loads(self.ROWS.to_json())[0], {
            "seed": 1, "branch": "base", "station": "desk", "job_class": None, "figure": "lost", "value": 3})
        path = os.path.join(self.folder, "rows.csv")
        self.assertEqual(self.ROWS.to_csv(path), self.ROWS.to_csv())
        self.assertEqual(os.listdir(self.folder), ["rows.csv"])
        self.assertEqual(self.ROWS.values("base", "desk", "lost"), [3, None])

    def test_frames(self):
        if pandas is None:
            with self.assertRaisesRegex(PlanningError, "needs pandas, which is not installed"):
                self.ROWS.to_frame()
        else:
            frame = self.ROWS.to_frame()
            self.assertEqual((list(frame["seed"]), list(frame["branch"])), ([1, 2], ["base", "base"]))

    def test_refusals(self):
        study = Study(self.file("model", MODEL), self.file("script", SCRIPT))
        for words, part in (({"seeds": []}, "no seeds"), ({"seeds": [1, 1]}, "twice"),
                            ({"seeds": [1], "start": 20}, "not within"),
                            ({"seeds": [1], "figures": ["x"]}, "no figure x"),
                            ({"seeds": [1], "branches": ["x"]}, "no branch x")):
            with self.assertRaisesRegex(PlanningError, part):
                study.run(**words)
        with self.assertRaisesRegex(PlanningError, "cannot read the model"):
            Study("/no/file", self.file("script", SCRIPT))
        with self.assertRaisesRegex(PlanningError, "no program"):
            Study(self.file("model", MODEL), self.file("script", SCRIPT), program="/no/cloner").run([1])


@needs_program
class Runs(Folder):
    def test_any_executor(self):
        study = Study(example("clinic.toml"), example("clinic.txt"), program=PROGRAM)
        options = {"figures": ["stay", "lost"], "stations": ["doctor", "exit"], "branches": ["base", "rush"]}
        rows = study.run(range(1, 4), jobs=1, **options)
        self.assertEqual(len(rows), 12)
        with concurrent.futures.ThreadPoolExecutor(2) as executor:
            self.assertEqual(list(study.run(range(1, 4), executor=executor, **options)), list(rows))
        self.assertEqual(rows.values("base", "doctor", "lost"), [0, 0, 0])

    def test_builders_and_watches(self):
        script = ScriptBuilder(kiosk())
        script.fork("two")
        script.set("two", 120, "till", "servers", 2)
        watches = self.file("watches", "watch base till wait 5 fork third set till servers 3\n")
        rows = Study(kiosk(), script, watches, program=PROGRAM).run([1, 2], jobs=1, figures=["got"])
        self.assertEqual({row.branch for row in rows}, {"base", "two", "third"})
        self.assertEqual({due.branch for due in rows.dues}, {"third"})


if __name__ == "__main__":
    unittest.main()
