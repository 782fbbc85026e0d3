"""Which parts of the black-box cases look at what: by subjects, of which each crate has one. A change of a crate is
tried by the parts of its subject first; `.ci/run` tries all parts."""
from collections.abc import Iterable

from blackbox.trial import TOP

# parts that each subject has
ALWAYS = ["documents of start", "documents of guide"]
PARTS_OF: dict[str, list[str]] = {
    "packets": [
        "documents of run",
        "drawn sessions",
        "run on boards with small packets",
        "serve every code, boards on ports",
    ],
    "tables": [
        "documents of arrays",
        "documents of listings",
        "documents of refused",
        "files of uHAL",
    ],
    "scripts": [
        "documents of run",
        "documents of refused",
        "drawn sessions",
        "the largest scripts",
        "the Python package",
    ],
    "policies": ["documents of run", "the largest policies", "the guide to policies", "run under a policy"],
    "losses": [
        "documents of lossy",
        "drawn sessions of losses",
        "run over the bad network 1",
        "run past a long sleep of a board",
        "a board that answers anything",
    ],
    "lanes": [
        "drawn sessions of many clients",
        "run of clients at once over the bad network 7",
        "run on a board that falls silent",
        "run of two clients at once, a board that answers two packets at once",
        "serve 16 clients at once, boards on ports",
        "serve packets that are sent within a wait",
        "serve clients that ask together again and again",
        "serve a link that fails while clients wait",
    ],
    "serving": [
        "serve frames cut at every byte, simulated boards",
        "serve half-closed connections, boards on ports",
        "serve every code, simulated boards",
        "serve lengths out of range, simulated boards",
        "serve an answer before the next board is waited for",
        "serve 64 clients at once, boards on ports",
        "streams of frames",
    ],
    "outside": [
        "run on two boards",
        "run on two boards at one address",
        "run on a board of another hub",
        "run on a board that comes and goes",
        "serve a board that was reset",
        "run past 100 forged replies",
        "run without a board",
        "run sends each packet once",
        "run while a route is away",
        "a board is silent at its second quiet receive",
        "silent boards take their time",
        "progress of a slow run",
        "a long wait is told once",
        "serve two frames in a piece, boards on ports",
        "serve half-closed connections, boards on ports",
        "serve on a port in use",
        "other outputs",
    ],
    "captures": ["captures", "the page of captures"],
    "audits": ["audits", "the guide to audits", "the replay itself"],
    "configurations": [
        "documents of configurations",
        "drawn configurations",
        "the largest configurations",
        "the guide to values",
    ],
    "commands": ["other words", "the page of help", "the version", "other inputs", "other outputs", "other ways to start"],
}
CRATES_OF: dict[str, str] = {
    "packets": "ipb_base packet_ids masked_fields transaction_codec packet_codec status_packet mtu_packer reply_join"
    " board_bus",
    "tables": "address_table node_tree",
    "scripts": "script_steps script_lang script_plans transcript run_laws load_run",
    "policies": "access_policy",
    "losses": "world_model world_core board_node board_specs reliable_engine lossy_network board_greeting",
    "lanes": "turn_pass lane_record lane_tables hub_lane board_berth hub_multiplexer client_threads board_history"
    " client_history session_run",
    "serving": "hub_framing hub_session session_serve serve_command",
    "outside": "ipb_outside links std_edges net_edges",
    "captures": "capture_reader capture_commands record_command",
    "audits": "transcript_reader run_audit audit_notes audit_command audit_laws",
    "configurations": "config_store config_input config_laws config_commands",
    "commands": "command_words command_terms note_lines session_notes session_input run_command operator_notes"
    " ipbus_program ipbus",
}


def subject_faults(parts: Iterable[str]) -> list[str]:
    """What is wrong with this table: crates without a subject, or with two, and parts that are none."""
    lines = [line for line in (TOP / "crates.txt").read_text().splitlines() if line and not line.startswith("#")]
    crates = [line.split(":")[0].split()[0] for line in lines]
    told = " ".join(CRATES_OF.values()).split()
    wrong = sorted(crate for crate in {*crates, *told} if not is_right(crate, crates, told))
    faults = [f"{crate} has {told.count(crate)} subjects" for crate in wrong]
    named = {name for names in PARTS_OF.values() for name in names}
    return faults + [f"no part is named {name}" for name in sorted(named - set(parts))]


def is_right(crate: str, crates: list[str], told: list[str]) -> bool:
    """Whether a crate has one subject, and a crate of tests none."""
    return told.count(crate) == (0 if crate.endswith("_tests") else 1) and crate in crates


def parts_of(crate: str) -> list[str]:
    """The parts that look at what a crate is about; all that are always tried where it has no subject."""
    for subject, crates in CRATES_OF.items():
        if crate in crates.split():
            return [*ALWAYS, *PARTS_OF[subject]]
    return ALWAYS
