"""The files of a study: model, script and watches, read once, with their texts."""
from typing import List, NamedTuple, Optional, Sequence

from .errors import PlanningError
from .figures import FIGURES
from .limits import MAX_FILE_BYTES
from .models import Model, model_in, parse_model
from .places import Places, is_too_long, read_bytes
from .scripts import Script, parse_script
from .seeds import with_seed
from .watches import parse_watches, with_watches


class StudyFiles(NamedTuple):
    """A study: its texts, and what they say. The script has the branches of the watches, too."""

    model_text: str
    model: Model
    places: Places
    script_text: str
    script: Script
    watches_text: Optional[str]
    watched: Sequence[str]

    def stations(self) -> List[str]:
        """Returns the servers and sinks."""
        return [station.name for station in self.model.stations if station.kind in FIGURES]

    def refuse_seed(self, seed: int) -> None:
        """Raises PlanningError if the model's seed cannot be replaced."""
        text = with_seed(self.model_text, seed).lstrip("\ufeff")
        if parse_model(text, self.places.path).seed != seed:
            raise PlanningError(f"{self.places.path}: the key seed can't be replaced; write it as a line `seed = 1`")


def read_text(path: str, what: str) -> str:
    """Returns the text of a file; PlanningError if it cannot be read, is too long, or is not UTF-8."""
    data = read_bytes(path, what)
    if is_too_long(data):
        raise PlanningError(f"{path}: a {what} has at most {MAX_FILE_BYTES:,} bytes")
    try:
        return data.decode("utf-8")
    except UnicodeDecodeError as fault:
        line = data.count(b"\n", 0, fault.start) + 1
        raise PlanningError(f"{path}: line {line}: the text is not UTF-8") from None


def study_of(model: str, script: str, watches: Optional[str], paths: Sequence[str]) -> StudyFiles:
    """Returns the study that these texts say, with the paths that errors name."""
    places = Places(paths[0], model.encode("utf-8", "surrogatepass"))
    known = parse_script(script, paths[1])
    found = parse_watches(watches, paths[2]) if watches is not None else []
    return StudyFiles(model, model_in(places), places, script, with_watches(known, found), watches,
                      [watch.new for watch in found])


def read_study(model: str, script: str, watches: Optional[str] = None) -> StudyFiles:
    """Returns the study in these files; PlanningError if one cannot be read or breaks a rule."""
    return study_of(read_text(model, "model"), read_text(script, "script"),
                    None if watches is None else read_text(watches, "file of watches"),
                    (model, script, watches or ""))
