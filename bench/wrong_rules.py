"""Wrong definitions of single rules, and the law or computed row that each is refused by.

Each entry: what is wrong, the file below crates/, the text that is changed, what it is changed to, and what refuses it: laws of
`machine_laws` by their names, computed rows of `worked_rows` as the file below its proofs/ and the lemma.
"""

WAITS = "plain_machine/specs/Waits.antt"
FORMS = "plain_machine/specs/Forms.antt"
HANDLING = "plain_machine/specs/Handling.antt"
CALLS = "plain_machine/specs/Calls.antt"
HOOKS = "plain_machine/specs/Hooks.antt"
LINES = "plain_machine/specs/Lines.antt"
REFUSALS = "plain_machine/specs/Refusals.antt"
NATIVES = "plain_machine/specs/Natives.antt"
SHIPPED = "plain_machine/specs/Shipped.antt"
MARKS = "text_model/specs/Marks.antt"
UNDO = "text_model/specs/Undo.antt"
COMMIT = "text_model/specs/Commit.antt"
COMMITS = "editor_model/specs/Commits.antt"
TEXT_CALLS = "editor_model/specs/TextCalls.antt"
UNDO_CALLS = "editor_model/specs/UndoCalls.antt"
READ_ONLY = "editor_model/specs/ReadOnly.antt"
PROPERTY_CALLS = "editor_model/specs/PropertyCalls.antt"
EDITOR = "editor_model/specs/Editor.antt"
BUFFER_CALLS = "editor_model/specs/BufferCalls.antt"
ARGUMENTS = "plain_machine/specs/Arguments.antt"
RUN = "plain_machine/specs/Run.antt"
WHOLE_RUNS = "plain_machine/specs/WholeRuns.antt"
GRAMMAR = "plain_machine/specs/Grammar.antt"
PROPERTIES = "text_model/specs/Properties.antt"

COMMIT_RULES = [
    (
        "kept end of a restriction stays in front of a text put in there",
        MARKS,
        "Restriction b (Some (move false ends.0, move true ends.1))",
        "Restriction b (Some (move false ends.0, move false ends.1))",
        ["TextRows.kept_end_of_a_restriction_holds"],
    ),
    (
        "kept point goes behind a text put in there",
        MARKS,
        "if b == buffer then Excursion b (move false p)",
        "if b == buffer then Excursion b (move true p)",
        ["TextRows.kept_point_of_an_excursion_holds"],
    ),
    (
        "kept point stays at its number",
        MARKS,
        "if b == buffer then Excursion b (move false p)",
        "if b == buffer then Excursion b p",
        ["TextRows.kept_point_moves_holds", "editors_stay_sound"],
    ),
    (
        "end of a pending change goes behind a text put in there",
        MARKS,
        "Pending b (move false from) (move false to)",
        "Pending b (move false from) (move true to)",
        ["HookRows.ends_of_a_pending_change_holds"],
    ),
    (
        "change made at the ends that it had as it was prepared",
        FORMS,
        "at_kept c (Pending b from to ∷ saved) = record c { from = from; to = to }",
        "at_kept c (Pending b from to ∷ saved) = c",
        ["HookRows.hook_edits_before_the_change_holds"],
    ),
    (
        "change made in a buffer that a hook function killed",
        COMMITS,
        "commit_tests e id (Put piece all point_after widen mark) =\n    refuse BufferKilled (is_live e id) ∷ must_have_room",
        "commit_tests e id (Put piece all point_after widen mark) =\n    must_have_room",
        ["HookRows.hook_kills_the_buffer_holds"],
    ),
    (
        "markers that don't advance go behind an insertion",
        MARKS,
        "move (m.advances || all) s.place",
        "move true s.place",
        ["TextRows.markers_at_a_tie_holds"],
    ),
    (
        "empty overlay with front-advance alone is turned round",
        MARKS,
        "start_advances all o s = all || (o.front_advance && (o.rear_advance || not (s.start == s.end)))",
        "start_advances all o s = all || o.front_advance",
        ["OverlayRows.empty_overlays_at_an_insertion_holds"],
    ),
    (
        "overlays that become empty stay",
        COMMIT,
        "marks = evaporate_all id (move_marks id false (deletion from to) site.marks);",
        "marks = move_marks id false (deletion from to) site.marks;",
        ["OverlayRows.evaporating_overlays_holds"],
    ),
    (
        "mark of a process stays in front of its output",
        COMMITS,
        "mark_to mark id (from + length piece)",
        "mark_to mark id from",
        ["ProcessRows.default_filter_outside_the_narrowing_holds"],
    ),
    (
        "empty insertion counts as a change",
        TEXT_CALLS,
        "insertion id at [] all = Nothing Nil",
        "insertion id at [] all = Changes (record { buffer = id; from = at; to = at; what = Put [] all true false None; reply = Nil })",
        ["HookRows.changes_of_nothing_holds"],
    ),
    (
        "empty deletion counts as a change",
        TEXT_CALLS,
        "if from == to then Nothing reply",
        "if false then Nothing reply",
        ["HookRows.changes_of_nothing_holds"],
    ),
    (
        "property that has its value already counts as a change",
        PROPERTY_CALLS,
        "change_of [] c unchanged = Nothing unchanged",
        "change_of [] c unchanged = Changes c",
        ["HookRows.changes_of_nothing_holds"],
    ),
    (
        "buffer erased in its accessible portion alone",
        COMMITS,
        "if widen then widened site.buffer else site.buffer",
        "site.buffer",
        ["CommitExamples.erased_is_wide"],
    ),
    (
        "insertion inherits from its neighbours the wrong way round",
        TEXT_CALLS,
        "(if p == 0 then None else char_at b (p - 1)))\n    (option_map (λ c. c.1) (char_at b p))",
        "(char_at b p)) (option_map (λ c. c.1) (if p == 0 then None else char_at b (p - 1)))",
        ["PropertyRows.inherited_from_the_front_holds"],
    ),
    (
        "part of a text taken by its length, and not by its end",
        PROPERTIES,
        "part from to text = drop from (take to text)",
        "part from to text = take to (drop from text)",
        ["deletions_are_put_back"],
    ),
    (
        "what a piece replaces stays behind it",
        PROPERTIES,
        "splice from to piece text = take from text ++ (piece ++ drop to text)",
        "splice from to piece text = take from text ++ (piece ++ drop from text)",
        ["insertions_are_taken_out", "deletions_are_put_back"],
    ),
]

HOOK_RULES = [
    (
        "fault of a hook function leaves those behind it",
        HANDLING,
        "(set_hook_list b before_change_functions [] s);\n      work = without_hooks_item rest;",
        "(set_hook_list b before_change_functions [] s);\n      work = rest;",
        ["HookRows.functions_in_a_list_holds"],
    ),
    (
        "hook function stands on its list twice",
        HOOKS,
        "if list_any (λ n. n == symbol_of fn) (hook_here s hook) then hook_here s hook\n    else symbol_of fn ∷ hook_here s hook",
        "symbol_of fn ∷ hook_here s hook",
        ["HookRows.functions_in_a_list_holds"],
    ),
    (
        "hook function can't be removed",
        HOOKS,
        "hook_removed s hook fn = filter (λ n. not (n == symbol_of fn)) (hook_here s hook)",
        "hook_removed s hook fn = hook_here s hook",
        ["HookRows.functions_of_a_copy_holds"],
    ),
    (
        "block that inhibits hooks doesn't",
        FORMS,
        "opened InhibitHooks s = record s { inhibited = true }",
        "opened InhibitHooks s = s",
        ["HookRows.hooks_inhibited_holds"],
    ),
    (
        "hooks stay inhibited behind the block that inhibits them",
        FORMS,
        "restored (KeptInhibition old) s = record s { inhibited = old }",
        "restored (KeptInhibition old) s = s",
        ["HookRows.hooks_inhibited_holds", "nothing_is_left_at_the_top"],
    ),
    (
        "block in which nothing is read-only changes nothing",
        FORMS,
        "opened InhibitReadOnly s = lifting true s",
        "opened InhibitReadOnly s = s",
        ["ReadOnlyRows.what_is_read_only_holds"],
    ),
    (
        "nothing is read-only behind that block",
        FORMS,
        "restored (KeptLifting old) s = lifting old s",
        "restored (KeptLifting old) s = s",
        ["ReadOnlyRows.block_ended_by_a_fault_holds", "nothing_is_left_at_the_top"],
    ),
    (
        "read-only buffer bars output",
        TEXT_CALLS,
        "(is_tested e (nat_lt 0 (length text))) false (takes",
        "(is_tested e (nat_lt 0 (length text))) (is_read_only e id) (takes",
        ["ReadOnlyRows.output_where_it_is_read_only_holds"],
    ),
    (
        "read-only buffer bars what would change nothing",
        READ_ONLY,
        "is_tested e changes = changes && not e.lifted",
        "is_tested e changes = not e.lifted",
        ["ReadOnlyRows.nothing_to_change_holds"],
    ),
    (
        "read-only text bars its undoing",
        UNDO_CALLS,
        "must_be_writable_here e true false",
        "must_be_writable_here e true true",
        ["ReadOnlyRows.undoing_what_is_read_only_holds"],
    ),
    (
        "insertion tested by the character before it alone",
        TEXT_CALLS,
        "takes_no_text e id at = bars (inherited_at (buffer_at e id) at)",
        "takes_no_text e id at = bars (inherited (option_map (λ c. c.1) (if at == 0 then None else char_at (buffer_at e id) (at - 1))) None)",
        ["ReadOnlyRows.neighbours_of_read_only_text_holds"],
    ),
    (
        "fault behind a change leaves the list of after-change functions",
        HANDLING,
        "ended_handler (OfAfter b) true s rest =\n    record { state = if_live s b (set_hook_list b after_change_functions [] s); work",
        "ended_handler (OfAfter b) true s rest =\n    record { state = s; work",
        ["HookRows.function_behind_a_change_ended_by_a_fault_holds"],
    ),
    (
        "fault before a change leaves the list of before-change functions",
        HANDLING,
        "ended_handler (OfBefore b) true s rest =\n    record {\n      state = if_live s b (set_hook_list b before_change_functions [] s);\n      work",
        "ended_handler (OfBefore b) true s rest =\n    record { state = s; work",
        ["HookRows.hook_ended_by_a_fault_holds"],
    ),
    (
        "functions behind a change aren't told its old length",
        FORMS,
        "(at_place from ∷ at_place to ∷ Int (pos old) ∷ []) rest)",
        "(at_place from ∷ at_place to ∷ Int (pos 0) ∷ []) rest)",
        ["HookRows.after_change_arguments_holds"],
    ),
    (
        "functions before a change are told where it begins alone",
        FORMS,
        "(at_place c.from ∷ at_place c.to ∷ []) (CommitChange c ∷ rest))",
        "(at_place c.from ∷ at_place c.from ∷ []) (CommitChange c ∷ rest))",
        ["HookRows.hook_edits_before_the_change_holds"],
    ),
    (
        "hooks stay inhibited behind a change",
        FORMS,
        "bracket false kind names args rest = Hooks kind names args ∷ Calm false ∷ rest",
        "bracket false kind names args rest = Hooks kind names args ∷ Calm true ∷ rest",
        ["nothing_is_left_at_the_top"],
    ),
    (
        "functions behind a change are those before it",
        FORMS,
        "(hooks_of s.hooks c.buffer).after\n    (at_place from",
        "(hooks_of s.hooks c.buffer).before\n    (at_place from",
        ["HookRows.after_change_arguments_holds"],
    ),
]

HANDLER_RULES = [
    (
        "name set in a handler is the script's, also where it is a parameter's",
        FORMS,
        "| Some old ↦ record s { scopes = with_register name v (scope_of s) ∷ drop 1 s.scopes }",
        "| Some old ↦ record s { editor = record s.editor { registers = with_register name v s.editor.registers } }",
        ["HookRows.names_in_a_handler_holds"],
    ),
    (
        "native hides a script's handler of its name",
        HANDLING,
        "body_of program s kind (Some name) args rest =\n    named_body program s (handler_def program.handlers name)",
        "body_of program s kind (Some name) args rest = named_body program s (elim (native_from 0 program.natives name) [ None ↦ handler_def program.handlers name | Some i ↦ None ])",
        ["NativeRows.handler_hides_a_native_holds"],
    ),
    (
        "process stays listed behind its sentinel",
        HANDLING,
        "ended_handler (OfSentinel p) faulted s rest = record { state = change_process p unlisted s; work = rest }",
        "ended_handler (OfSentinel p) faulted s rest = record { state = s; work = rest }",
        ["ProcessRows.questions_to_processes_holds"],
    ),
    (
        "block for the current buffer puts nothing back",
        FORMS,
        "restored (KeptBuffer b) s = if_live s b (current b s)",
        "restored (KeptBuffer b) s = s",
        ["TextRows.buffer_put_back_and_forms_chosen_holds"],
    ),
    (
        "forms of a comparison run where the values differ",
        FORMS,
        "elim (equal x y) [ true ↦ on s (Body forms ∷ rest) | false ↦ on s rest ]",
        "elim (equal x y) [ false ↦ on s (Body forms ∷ rest) | true ↦ on s rest ]",
        ["TextRows.buffer_put_back_and_forms_chosen_holds"],
    ),
    (
        "scopes stay behind their handlers",
        HANDLING,
        "record s { depth = s.depth - 1; scopes = drop 1 s.scopes } in",
        "record s { depth = s.depth - 1 } in",
        ["nothing_is_left_at_the_top", "ProcessRows.scope_ends_with_its_handler_holds"],
    ),
    (
        "depth stays behind a handler",
        HANDLING,
        "record s { depth = s.depth - 1; scopes = drop 1 s.scopes } in",
        "record s { scopes = drop 1 s.scopes } in",
        ["nothing_is_left_at_the_top", "ProcessRows.default_handlers_holds"],
    ),
    (
        "default filter leaves its buffer current",
        HANDLING,
        "    if_live out c (current c out)\n",
        "    out\n",
        ["ProcessRows.real_children_holds", "handlers_bracket", "calls_bracket"],
    ),
    (
        "fault in a handler ends its block without restoring",
        FORMS,
        "dropped f (Leave kept ∷ rest) s = dropped f rest (restored kept s)",
        "dropped f (Leave kept ∷ rest) s = dropped f rest s",
        ["nothing_is_left_at_the_top"],
    ),
    (
        "fault goes on outwards from a handler",
        FORMS,
        "dropped f (Exit kind handler c faulted ∷ rest) s = record { state = s; work = Exit kind handler c true ∷ rest }",
        "dropped f (Exit kind handler c faulted ∷ rest) s = dropped f rest s",
        ["HookRows.hook_ended_by_a_fault_holds"],
    ),
    (
        "parameters that have an argument stay unset",
        HANDLING,
        "bound_params (p ∷ params) (v ∷ args) = (p, v) ∷ bound_params params args",
        "bound_params (p ∷ params) (v ∷ args) = bound_params params args",
        ["HookRows.names_in_a_handler_holds", "DrillRows.drill_of_one_line"],
    ),
    (
        "native called without end",
        HANDLING,
        "native program s i args past rest =\n    native_next (nat_lt (length past) 256)",
        "native program s i args past rest = native_next (nat_lt (length past) 257)",
        ["NativeRows.native_that_never_ends_holds"],
    ),
    (
        "native may give what was never made",
        NATIVES,
        "was_made program s (TheBuffer b) = nat_lt b (length s.editor.buffers)",
        "was_made program s (TheBuffer b) = true",
        ["NativeRows.native_gives_a_buffer_never_made_holds"],
    ),
    (
        "empty list of a native isn't nil",
        NATIVES,
        "normal (Items End) = Nil",
        "normal (Items End) = Items End",
        ["NativeRows.odd_calls_of_a_native_holds"],
    ),
    (
        "shipped filter leaves the mark in front of the text",
        SHIPPED,
        "line Anything (λ a. (SetMarker, arg a 3 ∷ arg a 7 ∷ arg a 0 ∷ [])) ∷ []",
        "line Anything (λ a. (SetMarker, arg a 3 ∷ arg a 4 ∷ arg a 0 ∷ [])) ∷ []",
        ["NativeRows.shipped_insert_filter_holds"],
    ),
    (
        "shipped filter leaves point alone where a difference is no i64",
        SHIPPED,
        "(if int_lt y x then goto (x +ℤ (z -ℤ y)) else None)",
        "(if int_lt y x then (if is_i64 (z -ℤ y) then goto (x +ℤ (z -ℤ y)) else None) else None)",
        ["NativeExamples.sum_decides"],
    ),
]

WAIT_RULES = [
    (
        "refused send forgets the bytes that were sent",
        CALLS,
        "sent_answer s target rest size Broken =\n    Some (silent (record s { asked = s.asked + 1; sent = s.sent + size })",
        "sent_answer s target rest size Broken =\n    Some (silent (record s { asked = s.asked + 1; sent = 0 })",
        ["refusals_leave_the_state"],
    ),
    (
        "refused call sets the count of bytes to 0",
        CALLS,
        "unless_fault (Some f) s rest step = on s (Refuse f ∷ rest)",
        "unless_fault (Some f) s rest step = on (record s { sent = 0 }) (Refuse f ∷ rest)",
        ["refusals_leave_the_state"],
    ),
    (
        "wait answers t behind a read of any process",
        WAITS,
        "counts w p = is_target w.target p",
        "counts w p = true",
        ["WaitRows.target_asked_first_holds", "WaitRows.filter_deletes_another_process_holds"],
    ),
    (
        "target not asked first",
        WAITS,
        "target_first (Some t) all = t ∷ filter (λ p. not (p == t)) all",
        "target_first (Some t) all = all",
        ["WaitRows.target_asked_first_holds", "WaitRows.filter_deletes_another_process_holds"],
    ),
    (
        "wait for just one process asks the others too",
        WAITS,
        "(not w.just || is_target w.target p)",
        "true",
        ["WaitRows.rounds_and_just_this_one_holds"],
    ),
    (
        "process whose filter is off is asked",
        WAITS,
        "is_heard Off = false",
        "is_heard Off = true",
        ["ProcessRows.filter_off_and_on_holds"],
    ),
    (
        "one round fewer",
        WAITS,
        "wait_case false true [] (p ∷ more) (suc rounds) s w target rest =\n    on s (Wait (record w { rounds = rounds; asking = p ∷ more })",
        "wait_case false true [] (p ∷ more) (suc rounds) s w target rest =\n    on s (Wait (record w { rounds = 0; asking = p ∷ more })",
        ["WaitRows.rounds_and_just_this_one_holds"],
    ),
    (
        "round that begins asks nobody",
        WAITS,
        "on s (Wait (record w { rounds = rounds; asking = p ∷ more }) target ∷ rest)",
        "on s (Wait (record w { rounds = rounds; asking = [] }) target ∷ rest)",
        ["rounds_ask"],
    ),
    (
        "exit code told as success",
        WAITS,
        'exit_text (pos (suc n)) = codes "exited abnormally with code " ++ (decimal (suc n) ++ codes "\\n")',
        'exit_text (pos (suc n)) = codes "finished\\n"',
        ["ProcessRows.real_children_holds"],
    ),
    (
        "end that fails leaves the process running",
        WAITS,
        "end_answer s w target rest p x Answer.Failed =\n    Some (ends (asked_more s) p x Lost",
        "end_answer s w target rest p x Answer.Failed = Some (ends (asked_more s) p x Runs",
        ["ProcessRows.read_and_end_fail_holds"],
    ),
    (
        "kill that fails ends the run",
        WAITS,
        "kill_answer next Answer.Failed = Some next",
        "kill_answer next Answer.Failed = None",
        ["ProcessRows.kill_that_fails_holds"],
    ),
    (
        "one exchange more than may be",
        REFUSALS,
        "may_ask s = nat_lt s.asked most_exchanges",
        "may_ask s = nat_lt s.asked (most_exchanges + 1)",
        ["exchanges_stay_few"],
    ),
    (
        "bytes sent into a broken pipe not counted",
        CALLS,
        "sent_answer s target rest size Broken =\n    Some (silent (record s { asked = s.asked + 1; sent = s.sent + size })",
        "sent_answer s target rest size Broken =\n    Some (silent (record s { asked = s.asked + 1 })",
        ["LimitRows.all_bytes_sent_holds"],
    ),
    (
        "deletion refused at no depth",
        REFUSALS,
        "only_where (is_running s (process_of s (arg args 0))) (must_nest bound s) ∷ []",
        "[]",
        ["WaitRows.deletion_refused_at_bound_one_holds", "handlers_stay_shallow"],
    ),
    (
        "waits refused at the bound alone, and not beyond it",
        REFUSALS,
        "must_nest bound s = refuse Nesting (nat_lt s.depth bound)",
        "must_nest bound s = refuse Nesting (not (s.depth == bound))",
        ["same_under_a_larger_bound", "handlers_stay_shallow"],
    ),
    (
        "one process more than may be",
        REFUSALS,
        "must_be_fewer most_processes (length s.processes)",
        "must_be_fewer (most_processes + 1) (length s.processes)",
        ["exchanges_stay_few_in_all"],
    ),
    (
        "child of a process has the number of the process",
        CALLS,
        "        child = child;\n",
        "        child = length s.processes;\n",
        ["filters_hear_what_children_wrote", "kills_come_once"],
    ),
    (
        "input of a process that has ended counts as closed",
        WAITS,
        "(change_process p (λ y. record y { status = status }) s)",
        "(change_process p (λ y. record y { status = status; closed = true }) s)",
        ["refused_calls_leave_the_state"],
    ),
]

UNDO_RULES = [
    (
        "deletion undone moves markers that have moved since",
        COMMIT,
        "(if stands_at id place (slice_get before m.0) then marker_less id size m markers else markers)",
        "(marker_less id size m markers)",
        ["UndoRows.undo_leaves_a_marker_that_has_moved_holds"],
    ),
    (
        "undo-more stops in front of the boundary",
        UNDO,
        "[ true ↦ e ∷ groups n entries | false ↦ e ∷ groups (suc n) entries ]",
        "[ true ↦ groups n entries | false ↦ e ∷ groups (suc n) entries ]",
        ["UndoRows.empty_group_first_holds"],
    ),
    (
        "undoing outside the accessible portion is allowed",
        UNDO_CALLS,
        "refuse UndoOutside (not (is_some (trial b.begin b.end (undone n b.undo)))) ∷ []",
        "[]",
        ["UndoRows.undo_outside_holds"],
    ),
    (
        "records stay where recording is switched off",
        UNDO,
        "disabled u = record u { on = false; entries = []; pending_below = 0 }",
        "disabled u = record u { on = false; pending_below = 0 }",
        ["recording_keeps_boundaries", "UndoRows.recording_switched_off_holds"],
    ),
    (
        "insertions one behind the other are two records",
        UNDO,
        "| Inserted b p ↦\n      if p == from then record e { what = Inserted b to } ∷ entries else\n      record",
        "| Inserted b p ↦ record",
        ["UndoExamples.merged_insertions"],
    ),
    (
        "boundary pushed on a boundary",
        UNDO,
        "[ [] ↦ u | e ∷ entries ↦ if is_boundary e.what then u else pushed Boundary u ]",
        "[ [] ↦ u | e ∷ entries ↦ pushed Boundary u ]",
        ["UndoExamples.one_boundary"],
    ),
    (
        "undoing an insertion leaves it",
        COMMIT,
        "undo_one id (Inserted from to) behind site = deleted id from to (set_point from site)",
        "undo_one id (Inserted from to) behind site = site",
        ["UndoRows.undo_in_groups_holds"],
    ),
    (
        "no record of point in front of a deletion elsewhere",
        COMMIT,
        "(if fresh_group b.undo.entries && not (b.point == from) then Point b.point ∷ [] else []) ++",
        "",
        ["UndoRows.undo_list_as_printed_holds"],
    ),
    (
        "boundary counts as newer than itself",
        UNDO,
        "newer_than serial (e ∷ entries) = if e.serial == serial then [] else",
        "newer_than serial (e ∷ entries) = if e.serial == serial then e ∷ [] else",
        ["nothing_is_newer_than_a_new_boundary"],
    ),
]

EDITOR_RULES = [
    (
        "boundary pushed on an empty list of records",
        UNDO,
        "with_boundary u = elim u.entries [ [] ↦ u |",
        "with_boundary u = elim u.entries [ [] ↦ pushed Boundary u |",
        ["UndoExamples.no_boundary_alone", "editors_stay_sound"],
    ),
    (
        "killed buffer stays current",
        EDITOR,
        "killed id e = after_kill (e.current == id)",
        "killed id e = after_kill false",
        ["HookRows.hook_kills_the_buffer_holds", "editors_stay_sound"],
    ),
    (
        "new buffer's name may be taken",
        BUFFER_CALLS,
        "(with_buffer (free_name e.buffers (name_of name)) e) (TheBuffer (length e.buffers))",
        "(with_buffer (name_of name) e) (TheBuffer (length e.buffers))",
        ["BufferExamples.names", "editors_stay_sound"],
    ),
    (
        "second buffer of a name has the number 3",
        EDITOR,
        "| Some id ↦ first_numbered (length buffers) 2 buffers name",
        "| Some id ↦ first_numbered (length buffers) 3 buffers name",
        ["buffer_names_are_first"],
    ),
    (
        "second process of a name has the number 2",
        ARGUMENTS,
        "true ↦ free_name (length list) 1 list name",
        "true ↦ free_name (length list) 2 list name",
        ["process_names_are_first"],
    ),
    (
        "narrowing leaves point outside",
        TEXT_CALLS,
        "narrowed from to b = record b { begin = from; end = to; point = clip from to b.point }",
        "narrowed from to b = record b { begin = from; end = to }",
        ["editors_stay_sound"],
    ),
    (
        "overlays of a killed buffer stay",
        MARKS,
        "overlays = map (overlay_left buffer) marks.overlays;",
        "overlays = marks.overlays;",
        ["HookRows.hook_kills_the_buffer_holds"],
    ),
    (
        "first record of a new buffer is pending",
        EDITOR,
        "new_undo = record { on = true; entries = []; next = 0; pending_below = 0 }",
        "new_undo = record { on = true; entries = []; next = 0; pending_below = 1 }",
        ["new_buffers_are_good", "editors_stay_sound"],
    ),
]

RUN_RULES = [
    (
        "exchanges of a run aren't in its list",
        RUN,
        "Reaches program bound c (record { ask = ask; answer = answer } ∷ exchanges) (n.said ++ said) d",
        "Reaches program bound c exchanges (n.said ++ said) d",
        ["one_run_over_the_same_exchanges", "one_end_over_the_same_exchanges", "runs_are_computed"],
    ),
    (
        "bytes sent aren't compared with those of the exchange",
        RUN,
        "same_ask (Send c a) (Send d b) = (c == d) && same_bytes a b",
        "same_ask (Send c a) (Send d b) = c == d",
        ["computed_runs_are_runs"],
    ),
    (
        "computing run doesn't know an exchange that closes an input",
        RUN,
        "same_ask (Close c) (Close d) = c == d\n",
        "",
        ["runs_are_computed"],
    ),
    (
        "run is whole wherever no handler runs",
        WHOLE_RUNS,
        "pub ended : step program bound last ≡ Ended",
        "pub ended : last.state.depth ≡ 0",
        ["whole_runs_hear_all"],
    ),
    (
        "run may be broken off in front of the entry that a read caused",
        WHOLE_RUNS,
        "| Enter (OfFilter p) handler args ∷ rest ↦ ⊥",
        "| Enter (OfFilter p) handler args ∷ rest ↦ Unit {0}",
        ["broken_runs_hear_all", "filters_hear_what_children_wrote"],
    ),
    (
        "line of the fault is behind any front that is a script",
        GRAMMAR,
        "IsAnyScript longer →\n      length longer ≤ length front",
        "IsAnyScript longer →\n      length longer ≤ length bytes",
        ["fault_lines_are_determined"],
    ),
]

PRINTING_RULES = [
    (
        "markers told from 0",
        LINES,
        'codes "at " ++ (decimal (s.place + 1)',
        'codes "at " ++ (decimal s.place',
        ["TextRows.markers_at_a_tie_holds"],
    ),
    (
        "marker's type not told",
        LINES,
        '(if m.advances then codes "(moves after insertion) " else [])',
        "[]",
        ["TextRows.markers_at_a_tie_holds"],
    ),
    (
        "raw bytes not told in octal",
        LINES,
        "shown_ch (Raw b) = octal b",
        "shown_ch (Raw b) = b ∷ []",
        ["ProcessRows.held_tail_at_end_of_output_holds"],
    ),
    (
        "lines not indented",
        LINES,
        "indented (suc depth) line = 32 ∷ 32 ∷ indented depth line",
        "indented (suc depth) line = indented depth line",
        ["HookRows.hook_edits_before_the_change_holds"],
    ),
    (
        "properties not told",
        LINES,
        "| w ∷ words ↦ 35 ∷ bracketed (spaced (string ∷ w ∷ words))",
        "| w ∷ words ↦ string",
        ["PropertyRows.stickiness_holds"],
    ),
    (
        "kill at the end not told",
        LINES,
        'line symbols s (KilledLast p) = codes "kill " ++ (shown_process s p ++ 10 ∷ [])',
        "line symbols s (KilledLast p) = []",
        ["ProcessRows.scope_ends_with_its_handler_holds"],
    ),
    (
        "current buffer not told in the dump",
        LINES,
        'codes " current\\ntext "',
        'codes "\\ntext "',
        ["TextRows.empty_script_holds"],
    ),
    (
        "status of a process told without its code",
        LINES,
        'shown_status (Exited n) = codes "exit " ++ shown_int n',
        'shown_status (Exited n) = codes "exit"',
        ["ProcessRows.real_children_holds"],
    ),
    (
        "faults told by the wrong number",
        LINES,
        'fault_words ArgsOutOfRange = codes "1 args-out-of-range"',
        'fault_words ArgsOutOfRange = codes "2 args-out-of-range"',
        ["TextRows.region_out_of_range_holds"],
    ),
]

RULES = (
    COMMIT_RULES + HOOK_RULES + HANDLER_RULES + WAIT_RULES + UNDO_RULES + EDITOR_RULES + RUN_RULES + PRINTING_RULES
)
