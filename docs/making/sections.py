"""The sections of MODEL.md in their order: the title, an introduction, and the files of definitions.

A section has an introduction only if what it says belongs to no single file.
"""

SECTIONS = (
    (
        "What an answer says",
        "What the program promises of each answer that it writes. A reader of std reports the bytes that reads "
        "will still return, and a writer the bytes that it holds, each if they are known. `Appends old new bs` is "
        "a definition of std: if the old bytes are known, the new ones are these followed by bs. `Keeps old new` "
        "is one too: known bytes stay as they were. If nothing is known, both say nothing.",
        (
            "report/specs/Verdict.antt",
            "stream_io/specs/Written.antt",
            "stream_io/specs/Faults.antt",
            "stream_io/specs/Taken.antt",
            "compose/specs/Offences.antt",
            "result_lines/specs/Lines.antt",
            "result_lines/specs/Objects.antt",
            "report/specs/Details.antt",
            "report/specs/Witnessed.antt",
            "report/specs/Explained.antt",
            "report/specs/Findings.antt",
            "report/specs/Workers.antt",
            "report/specs/Calls.antt",
            "page/specs/Pages.antt",
            "page/specs/Markups.antt",
            "report/specs/Bulk.antt",
            "compose/specs/Verdicts.antt",
            "compose/specs/Checked.antt",
            "compose/specs/Counts.antt",
        ),
    ),
    (
        "Histories, and the orders that explain them",
        "Herlihy and Wing match a response to its invocation by object and process. Here the call number does, "
        "and each call is a process of its own: any number of calls may be open at the same time, and no order "
        "between them is demanded except that of their events.",
        (
            "events/specs/Order.antt",
            "events/specs/Events.antt",
            "events/specs/Heard.antt",
            "doc_register/specs/Run.antt",
            "doc_register/specs/Register.antt",
            "version_pair/specs/PairOrder.antt",
        ),
    ),
    (
        "History texts",
        "Which bytes are the text of a history is a relation between the bytes and the whole history. The reply "
        "table in one piece is in [FORMATS.md](FORMATS.md).",
        (
            "history/specs/Text.antt",
            "api_lines/specs/Lines.antt",
            "api_lines/specs/Sources.antt",
            "api_lines/specs/Json.antt",
            "api_lines/specs/ReplyTable.antt",
            "version_pair/specs/Id.antt",
            "version_pair/specs/Shards.antt",
        ),
    ),
    (
        "The first refused line",
        "History texts are defined a second time here, as a function from bytes to the events, or to a line and a "
        "cause, so that a refusal has one meaning. That both definitions agree is the law `TextsAreRead`.",
        (
            "history/specs/Reading.antt",
            "history/specs/ByRules.antt",
            "api_lines/specs/Texts.antt",
            "events/specs/Refusal.antt",
            "history/specs/Faults.antt",
            "api_lines/specs/HistoryLines.antt",
            "api_lines/specs/Fields.antt",
            "api_lines/specs/Kinds.antt",
            "api_lines/specs/Ids.antt",
            "api_lines/specs/Pairs.antt",
            "api_lines/specs/Faults.antt",
        ),
    ),
    (
        "Witnesses",
        "A witness of a document is an order of its calls, given so that it can be checked by itself. Its records "
        "are those of the document, numbered from 0 in the order of their calls (`records_of`).",
        (
            "places/specs/Places.antt",
            "places/specs/Witness.antt",
            "covers/specs/Covers.antt",
            "shard_numbers/specs/Taken.antt",
            "events/specs/TakenPairs.antt",
            "covers/specs/Answered.antt",
            "compose/specs/VerifyFaults.antt",
            "places/specs/Faults.antt",
            "write_chain/specs/AnsweredCalls.antt",
            "write_chain/specs/Chain.antt",
            "doc_check/specs/ReplyOrder.antt",
            "doc_check/specs/NoOrders.antt",
            "doc_check/specs/Search.antt",
            "check_pool/specs/Answers.antt",
            "check_pool/specs/Faults.antt",
            "witness/specs/Text.antt",
            "places/specs/Documents.antt",
        ),
    ),
    (
        "Evidence",
        "Evidence shows by one call or two that no order of a history's calls explains it. Calls are named by "
        "their numbers, in the order in which `Refuted` has them.",
        (
            "evidence/specs/Evidence.antt",
        ),
    ),
    (
        "Readings",
        "A store may promise less than that each reply shows the last change. A reading says what, turns a history "
        "into one that the strict check judges, and says which gets are judged one by one. What is found in the "
        "history that is judged is reported by the calls and events of the text.",
        (
            "readings/specs/Reading.antt",
            "readings/specs/Gets.antt",
            "readings/specs/WayBack.antt",
            "readings/specs/Laws.antt",
        ),
    ),
    (
        "Documents that are ruled out",
        "A document is ruled out if there are tables of what it may be between its events, each of which covers what may "
        "follow from the one before it, and the one behind some reply is empty. Then no order explains the document, and "
        "none the history, whatever became of the calls without a reply. That is a law (`RuledOutHaveNoOrder`): if you "
        "trust it, you need none of these definitions, which only say when it applies.",
        (
            "deciding/specs/Reported.antt",
            "deciding/specs/Positions.antt",
            "deciding/specs/Records.antt",
            "deciding/specs/Facts.antt",
            "deciding/specs/Elsewhere.antt",
            "deciding/specs/Branches.antt",
            "deciding/specs/Above.antt",
            "deciding/specs/Steps.antt",
            "deciding/specs/Tables.antt",
            "deciding/specs/Laws.antt",
        ),
    ),
    (
        "What else is written and read",
        "",
        (
            "api_lines/specs/Objects.antt",
            "api_lines/specs/Written.antt",
            "events/specs/Keys.antt",
            "history/specs/Written.antt",
            "events/specs/Seen.antt",
            "api_lines/specs/Bulk.antt",
            "api_lines/specs/BulkReply.antt",
            "history/specs/BulkText.antt",
            "doc_register/specs/Documents.antt",
        ),
    ),
    (
        "Recorded histories",
        "A recorder has pens, one for each client. Calls, replies and lost calls are recorded through a pen, and "
        "each recording returns the number of its event.",
        (
            "recorder/specs/Pens.antt",
            "recorder/specs/Recordings.antt",
            "recorder/specs/Closing.antt",
            "recorder/specs/Clock.antt",
        ),
    ),
    (
        "Plans and client runs",
        "A plan says what each client does. Clients take their turns at a target: it is asked for operations, "
        "returns a ticket for each, and is polled for the outcome. Two relations of the target say what it may "
        "issue and give, and a fact of its own (`all_given`) what holds if it has given all its tickets.",
        (
            "workload/specs/Plans.antt",
            "workload/specs/Drawing.antt",
            "workload/specs/ClientRuns.antt",
            "workload/specs/Playing.antt",
            "workload/specs/RunFaults.antt",
            "recorded_runs/specs/Runs.antt",
        ),
    ),
    (
        "A replication group",
        "A group is a shard that is kept in several copies. Operations are submitted to it under tickets, counted "
        "from 0, and the group goes on by steps, one at a time. A document is named by its number: documents are "
        "counted in the order in which they were first submitted.",
        (
            "repl_group/specs/Operations.antt",
            "repl_group/specs/Faults.antt",
            "repl_group/specs/Copies.antt",
            "repl_group/specs/Requests.antt",
            "repl_group/specs/Group.antt",
            "repl_group/specs/Polling.antt",
            "repl_group/specs/Honest.antt",
        ),
    ),
    (
        "A group that is disturbed",
        "A group may be disturbed while clients poll it, by the incidents of a schedule. A schedule is a function "
        "of the disturbance, a seed and a length.",
        (
            "disturbances/specs/Schedules.antt",
            "disturbances/specs/Disturbed.antt",
        ),
    ),
    (
        "A search through seeds",
        "Runs with the seeds of a range are tried until one of them has no order.",
        (
            "recorded_runs/specs/Range.antt",
            "seed_search/specs/Found.antt",
        ),
    ),
    (
        "The program's arguments",
        "What the arguments of the command line ask for. How they are parsed is defined by the crate `clap`: "
        "`App` is a command with its arguments and subcommands, `Rule` an argument, `Row` what an argument was "
        "given, and `Kinds` the kinds of error that may be reported.",
        (
            "command_line/specs/Asked.antt",
            "casbench/specs/Input.antt",
            "casbench/specs/Names.antt",
            "casbench/specs/Outcomes.antt",
            "casbench/specs/Each.antt",
            "casbench/specs/Objects.antt",
            "casbench/specs/Readings.antt",
            "casbench/specs/Requests.antt",
            "casbench/specs/Exit.antt",
            "casbench/specs/Faults.antt",
        ),
    ),
    (
        "Laws",
        "A law states of the definitions what they should imply. Its proof tests them, as a worked case does: a "
        "definition that says too much or too little would break one. Each law is the contract of a function that "
        "does nothing, in the module `laws` of its crate. Why the definitions have this shape is explained in "
        "[DECISIONS.md](DECISIONS.md).",
        (
            "doc_register/specs/Laws.antt",
            "doc_register/specs/WorkedSteps.antt",
            "api_lines/specs/Laws.antt",
            "events/specs/Laws.antt",
            "history/specs/Laws.antt",
            "places/specs/Laws.antt",
            "witness/specs/Laws.antt",
            "recorder/specs/Laws.antt",
            "compose/specs/Laws.antt",
            "compose/specs/Certainties.antt",
            "compose/specs/Shards.antt",
        ),
    ),
)
