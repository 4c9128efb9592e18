#!/usr/bin/env python3
"""Writes docs/THEOREMS.md: each main theorem, the contract that states it, and the files that carry its proof.

`theorems.py` writes the page; `theorems.py --check` writes nothing and ends with 1 where the page is not current. It fails
where a function, a clause or a file that it names is gone.
"""
import os
import re
import sys

sys.path.insert(0, os.path.dirname(os.path.abspath(__file__)))
import commands
import specs

PAGE = "docs/THEOREMS.md"
FIRST, LAST = "<!-- made by tools/theorems.py: begin -->\n", "<!-- made by tools/theorems.py: end -->\n"
# By part: the theorem in words, the contract as `crate function clause ..` (all clauses where none is named), and the files
# of proofs, as `crate: file ..`. A method is named by its file too: `crate file:method`.
PARTS = {
    "Numbers, shapes and cells": [
        ("The text of a coordinate is exact and reads back as it", "fixed_point writing:text; fixed_point reading:parse", "fixed_point: Canonical"),
        ("A cell is blocked exactly by the inequality, and no cell outside of an obstruction's reach is", "obstruction_shapes blocking:blocks; obstruction_shapes reaching:reach_rect", "obstruction_shapes: Near Turning Runs"),
        ("Painting sets exactly the bits of the classes for which the shape blocks the cell", "clearance_raster raster", "clearance_raster: BlockedColumns Reaching Rastering AlikeClasses"),
    ],
    "Regions and areas": [
        ("Each cell has the number of its region, in the order of first cells; so have labels made from those of before", "chunk_regions label; chunk_regions relabel", "chunk_regions: GroupLemmas SpanLemmas RowLemmas CopyLemmas RelabelLemmas"),
        ("Two chunks have exactly these region edges", "region_edges between", "region_edges: EdgeLemmas"),
        ("Two regions are of one area exactly where links join them", "reach_sets tables:build", "reach_sets: ForestLemmas NumberLemmas AreaLemmas UniqueLemmas"),
    ],
    "Versions of the map": [
        ("A version is the map built from scratch out of what stands: its passable cells, regions, areas and tallies", "grid_versions versions:build", "grid_versions: BuildLemmas LinkLemmas AreaLemmas RegionLemmas TallyLemmas PassingLemmas"),
        ("The next version is that too, however little of it was made anew", "grid_versions versions:next", "grid_versions: NextLemmas DirtyLemmas ReachLemmas ReacherLemmas ChangeLemmas VersionLemmas"),
        ("The bitboards of a class are exactly its passable cells, by rows and by columns, also after a change", "class_planes plane_sets:updated", "class_planes: PlaneLemmas ReadLemmas TurnLemmas UpdateLemmas"),
    ],
    "The search": [
        ("The plain search gives the chosen walk, and there is at most one", "walks plain_search; walks one_answer", "walks: Sweeping Tracing OneAnswer"),
        ("Of two steps of the chosen walk the second is a natural or a forced neighbour of the first", "jump_search search:find", "jump_search: Exchange Turns"),
        ("The chosen walk goes by jump points", "jump_search search:find", "jump_search: Stopping RunEnds"),
        ("A search by a consistent estimate that has ended has every state that the chosen walk needs, at its cost", "jump_search search:find", "jump_search: Measuring Landing Framing Bounding Relaxing Dropping Taking Halting"),
        ("Its end is the first of the nearest targets, and the walk that is traced back by costs is the chosen one", "jump_search search:find", "jump_search: Ending LastRuns Picking GoingBack Answering"),
        ("The way out of a rectangle, a disc or a turned square without goal cells is an estimate by which a search may go", "jump_search search:find", "jump_search: WaysOut Roots Rims Sides\nturn_core: OutOfShapes"),
        ("A run beyond the cost of a walk that is known may be cut off", "jump_search search:find", "jump_search: Bounding Ending"),
        ("A find within a greatest cost finds none exactly where every walk costs more", "jump_search search:find_within; turn_core near_answers:solve_within", "jump_search: Within"),
        ("The opened number is exact", "jump_search search:trace; jump_search one_opened_number", "jump_search: Opening OneNumber"),
        ("Runs over bitboards stop where the definition says", "class_planes plane_scans:straight; class_planes plane_scans:diagonal", "class_planes: FarLemmas OpeningLemmas StepLemmas StopLemmas"),
        ("The precomputed jump flags are right, also after a change", "class_planes plane_sets:updated", "class_planes: StopLineLemmas StopWordLemmas StopChangeLemmas StopBandLemmas"),
    ],
    "Landmarks": [
        ("No walk costs less than its landmark bound, whatever stands on the map; tables that are made in parts and taken in keep that", "landmarks bound_of_walk; landmarks half_tables:gone_on; landmarks tables:take", "landmarks: Bounds Gentle Marking"),
        ("The bound that a search takes falls along a legal step by at most its cost, and is an estimate by which it may go", "landmarks span_bound_falls; grid_versions versions:landmarks", "landmarks: Spanning\njump_search: PastWalls\nturn_core: Searchable\ngrid_versions: GuidingLemmas"),
    ],
    "Goals, fields and smoothing": [
        ("The start cell is the nearest passable one; the goal is kept where it can be reached, else the closest reachable cell is the target", "goal_reach nearest_passable; goal_reach made_reachable", "goal_reach: Choosing Ringing Beyond Running Joining"),
        ("A flow field has the least cost of each cell, and the first step that leads nearer", "flow_field making:field", "flow_field: Relaxing Lowering Taking Ending Following SameFields"),
        ("The smoothed walk has the fewest clear waypoints", "line_smooth smooth", "line_smooth: Spans Sights Legs Candidates BestPlaces"),
    ],
    "Turns, threads and callers": [
        ("A request has one answer at most, and has one", "turn_core one_answer; answer_laws each_request_has_an_answer", "answer_laws: Requests Choosing Distances Deciding Framing"),
        ("A turn and a journal have the replies that one thread gives, and no others", "turn_core one_thread; answer_laws each_journal_has_an_answer", "answer_laws: Telling Tallying Noting"),
        ("Workers draw all jobs, each once, under any interleaving", "claim_board claims:claim; claim_board claims:close", "claim_board: Keeps Totals Whole"),
        ("Any number of workers gives each job the answer of one", "path_workers turns:run_noted", "path_workers: Working Placed Ordering"),
        ("Callers and driver make a run of the turn machine, and what is left at the end is a journal and its replies", "path_service drivers:close", "path_service: LaneSteps StartedTurns NextTurns Deliveries ReachedServices ClosedLanes"),
    ],
    "Texts": [
        ("The reader gives what the grammar says of each line, in its place", "script_text reader:next_item; script_text pushed:next", "script_text: ReadWalk ItemReads GrammarLines GrammarPosts GrammarValues"),
        ("A bad line has a cause, and what the cause says is true", "script_text true_causes; script_text line_causes", "script_text: CauseLemmas TrueCauses StrangeKeys"),
        ("The canonical script reads back", "script_text canonical_reads_back", "script_text: BackTexts BackScript BackPosts BackMaps BackWalk"),
        ("An input is read as a script exactly where its lines are one", "match_laws scripts_are_read", "match_laws: ScriptReads ScriptLines BadLines"),
    ],
    "The program and the library": [
        ("The program writes the text of the answers, or stops early for a stated cause", "pathserve run", "pathserve: Replaying Progress OneThread ServedTexts SessionEnds WrittenTexts"),
        ("Each input has one output text", "pathserve one_out; match_laws each_input_has_an_output_text", "pathserve: OneText\nmatch_laws: OutputsExist"),
        ("A match that is fed with bytes cut anywhere tells the program's text", "match_play matches:feed; match_play matches:finish", "match_play: Playing Finishing LastItems Fits"),
        ("A saved match gives the same answers", "match_laws saved_matches_go_on", "match_laws: GoingOn SavedReplies\nmatch_play: SavedMaps WhatStands"),
    ],
}


def sources_of(crate):
    folder = os.path.join(specs.TOP, "crates", crate, "src")
    return sorted(os.path.relpath(os.path.join(at, it), specs.TOP) for at, _, names in os.walk(folder) for it in names)


def contract(words):
    """A link to a function with a contract."""
    crate, name = words.split()
    file, _, name = name.rpartition(":")
    found = [
        it for it in sources_of(crate)
        if (not file or it.endswith(f"/{file}.rt")) and re.search(rf"(?ms)^ *(?:pub )?fn {name}\b(?:(?!^ *\{{).)*?^ *ensures\b", specs.read(it))
    ]
    if not found:
        raise ValueError(f"{crate} has no function {name} with a contract: this script names it")
    return f"[`{name}`](../{found[0]}) of `{crate}`"


def carriers(text):
    """Links to files of proofs with their heads, and their lines together."""
    links, lines = [], 0
    for row in text.split("\n"):
        crate, _, names = row.partition(": ")
        for name in names.split():
            file = f"crates/{crate}/proofs/{name}.antt"
            if not os.path.isfile(os.path.join(specs.TOP, file)):
                raise ValueError(f"there is no {file}: this script names it")
            links.append(f"[{name}](../{file})")
            lines += specs.read(file).count("\n")
    return " ".join(links), lines


def made():
    out = []
    for part, theorems in PARTS.items():
        out += [f"## {part}\n", "| theorem | contract | carried by | lines |", "|---|---|---|---|"]
        for theorem, contracts, proofs in theorems:
            links, lines = carriers(proofs)
            out.append(f"| {theorem} | {'; '.join(map(contract, contracts.split('; ')))} | {links} | {lines} |")
        out.append("")
    return "\n".join(out)


def page():
    return specs.between(PAGE, FIRST, LAST, made())


if __name__ == "__main__":
    commands.run(lambda: specs.put(PAGE, page, "theorems.py", sys.argv[1:], __doc__))
