#!/usr/bin/env python3
"""Proves the laws of machines that are wrong, and checks that they are refused.

    bench/wrong_machines.py [NAME ..]

A machine is the definition of a step with one line of it changed, so that it breaks what a law says: a call that does nothing,
a request that is dropped. In a copy of the crates up to pct_ending_laws each machine is made in turn, and `rt check` then has to
prove the laws of it. It is refused if the check does not prove them, and if an error is in a certain file: that of the proof of
the law, or of a part of the invariant which this law needs. Other files have errors, too, where their proofs use the line that
was changed. A crate is checked only where those below it are proved, so in the copy the ten crates that prove the laws are one.
The list of the cases of a transition, from which the laws are proved, repeats the transitions; where the changed line is one of a
transition, or of a choice, its case is changed alike, so that what is refused is the law.

With names only these machines are tried. A machine takes about forty seconds. `rt` has to be in the PATH. The last line is
`N passed, M failed`. The status is 1 if M is not 0 or N is 0.
"""
import dataclasses
import pathlib
import re
import shutil
import subprocess
import sys
import tempfile

ROOT = pathlib.Path(__file__).resolve().parent.parent
BELOW = ("pct_io", "pct_model", "pct_names", "pct_laws", "pct_jumps", "pct_transition_cases")
# The crates that prove the laws. In the copy they are the last one.
LAWS = ("pct_thread_invariants", "pct_join_laws", "pct_once_laws", "pct_wake_laws", "pct_cancel_laws", "pct_process_laws", "pct_frame_laws", "pct_creation_laws", "pct_stack_laws", "pct_ending_laws")
SPECS = "crates/pct_model/specs"
CASES = "crates/pct_transition_cases/proofs"
SECONDS = 1800


@dataclasses.dataclass(frozen=True)
class Machine:
    name: str
    # The law that it breaks, and the file in which the proof of this law has to fail, below proofs/ of one of LAWS.
    law: str
    proof: str
    # The file of the definitions, its line, and the line in its place.
    file: str
    line: str
    wrong: str
    # The file of the cases, its line, and the line in its place, where the case of the transition repeats the line.
    case: tuple = ()
    # The same, where the definition of what is offered (OfferedChoices) repeats the line, too.
    offer: tuple = ()
    # Further such changes.
    others: tuple = ()
    # Further lines of definitions: the file, the line, and the line in its place.
    lines: tuple = ()


MACHINES = (
    Machine("a_call_does_nothing", "FrameLaw", "frames/MovedFrames", "Actions",
            "own_after (Some (own_action.RunHandler f a)) t = record t { status = Running; frames = new_frame f a kind.Handler ∷ []; handlers = without_first t.handlers }",
            "own_after (Some (own_action.RunHandler f a)) t = record t { handlers = without_first t.handlers }"),
    Machine("a_value_stays_as_its_destructor_is_called", "Calls", "steps/CalledFunctions", "Actions",
            "frames = new_frame f v kind.Destructor ∷ []; specific = without_value (key_place k) t.specific }",
            "frames = new_frame f v kind.Destructor ∷ [] }"),
    Machine("an_exit_function_stays_registered", "SharedLaw", "SharedChanges", "Actions",
            "shared_after (Some shared_action.TakeExit) s = record s { exit_functions = without_first s.exit_functions }",
            "shared_after (Some shared_action.TakeExit) s = s"),
    Machine("a_deleted_key_stays", "Calls", "steps/KeptKeys", "Actions",
            "shared_after (Some (shared_action.DeleteKey k)) s = record s { keys = without_key (key_place k) s.keys }",
            "shared_after (Some (shared_action.DeleteKey k)) s = s"),
    Machine("no_key_is_due", "Ends", "steps/EndStages", "ThreadEnds",
            "due_keys keys t = length (due_places keys t.specific)",
            "due_keys keys t = 0"),
    Machine("a_pass_takes_no_key", "Ends", "steps/EndStages", "Keys",
            "with_pass own = record own { in_pass = map (λ value. not (nat_eq value 0)) own.values }",
            "with_pass own = record own { in_pass = map (λ value. false) own.values }"),
    Machine("no_value_is_due", "Ends", "steps/EndStages", "Keys",
            "is_due places own place = option_map_or (λ key. is_some key.destructor) (key_at places place) false &&",
            "is_due places own place = option_map_or (λ key. false) (key_at places place) false &&"),
    Machine("a_request_is_dropped", "CancelLaw", "requests/PendingRequests", "Actions",
            "named_after (Some (named_action.Request id)) t = if has_valid_id id t && not t.ended then record t { pending = true } else t",
            "named_after (Some (named_action.Request id)) t = t"),
    Machine("a_child_inherits_the_request", "CancelLaw", "requests/PendingRequests", "Actions",
            "mode = t.mode; pending = false; handlers = t.handlers;",
            "mode = t.mode; pending = t.pending; handlers = t.handlers;"),
    Machine("cancelability_is_not_set", "CancelLaw", "requests/CancelStates", "Actions",
            "own_after (Some (own_action.SetState state)) t = record t { state = state }",
            "own_after (Some (own_action.SetState state)) t = t"),
    Machine("the_type_stays_at_the_end", "CancelLaw", "requests/SetCancelability", "Actions",
            "own_after (Some (own_action.BeginEnd why)) t = record t { status = Ending; frames = []; state = ending_state; mode = ending_mode; reason = why;",
            "own_after (Some (own_action.BeginEnd why)) t = record t { status = Ending; frames = []; state = ending_state; reason = why;"),
    Machine("each_thread_counts_as_the_last", "AfterEnd", "LastThreads", "Environment",
            "is_last id threads = list_all (λ t. not (holds_slot t) || (t.ended || nat_eq t.id id)) threads",
            "is_last id threads = list_all (λ t. t.ended || not t.ended) threads"),
    Machine("an_exit_leaves_no_value", "ProcessLaw", "processes/ProcessEnds", "Actions",
            "shared_after (Some (shared_action.BeginExit v)) s = record s { exit_value = Some v }",
            "shared_after (Some (shared_action.BeginExit v)) s = s"),
    Machine("the_status_of_a_process_is_lost", "ProcessLaw", "processes/ProcessEnds", "Actions",
            "process_after (Some (process_action.End n)) p = record p { ended = Some (record { status = n; reaped = nat_eq p.parent 0 }) }",
            "process_after (Some (process_action.End n)) p = record p { ended = Some (record { status = 0; reaped = nat_eq p.parent 0 }) }"),
    Machine("push_loses_its_argument", "StatementLaw", "steps/SaidStatements", "CleanupHandlers",
            "pushes next f v = record (goes_on next (Pushed f v ∷ [])) { own = Some (own_action.PushHandler f v) }",
            "pushes next f v = record (goes_on next (Pushed f 0 ∷ [])) { own = Some (own_action.PushHandler f 0) }",
            ("TransitionCases",
             "(what.Pushed f (value frame v) ∷ [])) { own = Some (own_action.PushHandler f (value frame v)) })",
             "(what.Pushed f 0 ∷ [])) { own = Some (own_action.PushHandler f 0) })")),
    Machine("exit_gives_0", "StatementLaw", "steps/SaidStatements", "TransitionTable",
            "runs frame (statement.ThreadExit v) = ends_by_exit (value frame v)",
            "runs frame (statement.ThreadExit v) = ends_by_exit 0",
            ("TransitionCases",
             "(acts (what.EndingExit (value frame v) ∷ [])) { own = Some (own_action.BeginEnd (reason.Exit (value frame v))) })",
             "(acts (what.EndingExit 0 ∷ [])) { own = Some (own_action.BeginEnd (reason.Exit 0)) })")),
    Machine("enable_disables", "StatementLaw", "steps/SaidStatements", "CancelCalls",
            "(what.StateSet enable ∷ [])) { writes = (old, state_number state) ∷ []; own = Some (own_action.SetState (state_if enable)) }",
            "(what.StateSet false ∷ [])) { writes = (old, state_number state) ∷ []; own = Some (own_action.SetState (state_if false)) }",
            ("TransitionCases",
             "(what.StateSet enable ∷ [])) { writes = (old, state_number t.state) ∷ []; own = Some (own_action.SetState (state_if enable)) })",
             "(what.StateSet false ∷ [])) { writes = (old, state_number t.state) ∷ []; own = Some (own_action.SetState (state_if false)) })")),
    Machine("signal_wakes_nobody", "WakeLaw", "NamedWaiters", "CondCalls",
            "signals_by (alt.Pick u) next c = record (goes_on next (what.Signalled c u ∷ [])) { named = Some (named_action.Wake u) }",
            "signals_by (alt.Pick u) next c = goes_on next (what.Signalled c 0 ∷ [])",
            ("CaseOfTransition",
             "signal_case (alt.Pick u) frame c may = signal_sent frame c u (λ known. picked_among (may known))",
             "signal_case (alt.Pick u) frame c may = signal_lost frame c")),
    Machine("join_is_of_another_thread", "StatementLaw", "steps/NamedWaits", "ThreadCalls",
            "begins_join id = record (acts (what.Called join_point ∷ [])) { own = Some (own_action.SetStatus (status.Joining id)) }",
            "begins_join id = record (acts (what.Called join_point ∷ [])) { own = Some (own_action.SetStatus (status.Joining (suc id))) }",
            ("TransitionCases",
             "(acts (what.Called join_point ∷ [])) { own = Some (own_action.SetStatus (status.Joining (value frame id))) })",
             "(acts (what.Called join_point ∷ [])) { own = Some (own_action.SetStatus (status.Joining (suc (value frame id)))) })")),
    Machine("join_returns_with_nothing", "StatementLaw", "steps/NamedWaits", "ThreadCalls",
            "joins_at (Some v) id (StatementIn frame (statement.Join operand d)) = ends_join (suc frame.pc) d id v",
            "joins_at (Some v) id (StatementIn frame (statement.Join operand d)) = goes_on (suc frame.pc) []",
            ("TransitionCases",
             "(record (goes_on (suc frame.pc) (what.Joined id v ∷ [])) { writes = (d, v) ∷ []; named = Some (named_action.EndJoin id) })",
             "(goes_on (suc frame.pc) [])")),
    Machine("sem_wait_takes_nothing", "StatementLaw", "steps/NamedWaits", "SemCalls",
            "= record (goes_on (suc frame.pc) (what.Taken s ∷ [])) { shared = Some (shared_action.SetCount s (count - 1)) }",
            "= goes_on (suc frame.pc) []",
            ("TransitionCases",
             "(record (goes_on (suc frame.pc) (what.Taken sem ∷ [])) { shared = Some (shared_action.SetCount sem (slice_index shared.counts sem - 1)) })",
             "(goes_on (suc frame.pc) [])")),
    Machine("nobody_is_seen_to_wait", "WakeLaw", "WaitingThreads", "Environment",
            "waiter_by c id (status.Waiting cond m) = if nat_eq cond c then record { id = id; mutex = m } ∷ [] else []",
            "waiter_by c id (status.Waiting cond m) = []"),
    Machine("setspecific_stores_null", "ValueLaw", "results/SetValues", "TransitionTable",
            "runs frame (statement.SetSpecific key v) = sets_specific (suc frame.pc) (value frame key) (value frame v)",
            "runs frame (statement.SetSpecific key v) = sets_specific (suc frame.pc) (value frame key) 0",
            ("TransitionCases", "(own_action.SetSpecific (value frame key) (value frame v)) })", "(own_action.SetSpecific (value frame key) 0) })")),
    Machine("a_new_thread_has_values", "ValueLaw", "keys/KeysOfProcesses", "World",
            "pass = 0; specific = no_values; kept = None;",
            "pass = 0; specific = record no_values { values = 1 ∷ [] }; kept = None;"),
    Machine("a_child_has_no_values", "ValueLaw", "results/OtherProcesses", "Actions",
            "pass = 0; specific = without_pass t.specific; kept = None;",
            "pass = 0; specific = record t.specific { values = [] }; kept = None;"),
    Machine("getspecific_reads_a_deleted_key", "ValueLaw", "results/UsedKeys", "StopTable",
            "stops_of frame (statement.GetSpecific d key) = (is_none (key_with (value frame key) shared.keys), why.KeyId) ∷ []",
            "stops_of frame (statement.GetSpecific d key) = (false, why.KeyId) ∷ []"),
    Machine("a_wake_wakes_nobody", "WakeLaw", "OtherThreads", "Actions",
            "named_after (Some (named_action.Wake id)) t = if has_valid_id id t then record t { status = unblocked cause.Signalled t.status } else t",
            "named_after (Some (named_action.Wake id)) t = t"),
    # The others of those that wait stay in their wait.
    Machine("a_broadcast_wakes_one", "WakeLaw", "OtherThreads", "Actions",
            "named_after (Some (named_action.WakeAll c)) t = if is_waiting_on c t.status then record",
            "named_after (Some (named_action.WakeAll c)) t = if is_waiting_on c t.status && nat_eq t.id 2 then record"),
    Machine("a_step_disables_other_threads", "WakeLaw", "OtherThreads", "Actions",
            "thread_moved tid o t = named_after o.named (if has_valid_id tid t then moved o t else t)",
            "thread_moved tid o t = named_after o.named (if has_valid_id tid t then moved o t else record t { state = ending_state })"),
    Machine("a_canceled_waiter_keeps_the_signal", "WakeLaw", "HandedOnSignals", "CondCalls",
            "hands_on u c m = if nat_eq u 0 then leaves_wait c m else record (acts (what.WaitCanceled c ∷ what.HandedOn c u ∷ [])) { own = Some (own_action.SetStatus (status.Reacquire c m cause.Canceled)); named = Some (named_action.Wake u) }",
            "hands_on u c m = leaves_wait c m",
            ("CaseOfTransition",
             "acting_case n next (status.Reacquire c m cause.Signalled) may = handing_case n next c m may (nat_eq n 0) refl",
             "acting_case n next (status.Reacquire c m cause.Signalled) may = canceled_after_wait next c m cause.Signalled refl (λ known. act_delivered (may known))")),
    Machine("an_unlock_keeps_the_owner", "SharedLaw", "SharedChanges", "MutexCalls",
            "unlocks next m = record (goes_on next (what.Released m ∷ [])) { shared = Some (shared_action.OwnMutex m 0) }",
            "unlocks next m = goes_on next (what.Released m ∷ [])",
            ("TransitionCases",
             "(record (goes_on (suc frame.pc) (what.Released m ∷ [])) { shared = Some (shared_action.OwnMutex m 0) })",
             "(goes_on (suc frame.pc) (what.Released m ∷ []))")),
    Machine("sem_wait_returns_at_0", "SharedLaw", "SharedChanges", "ChoiceTable",
            "go_if (nat_lt 0 (slice_index shared.counts s)) ++ expire_if (can_expire environment next && not (nat_lt 0 (slice_index shared.counts s))) ++",
            "go_if true ++ expire_if (can_expire environment next && not true) ++",
            ("TransitionCases",
             "sem_taken : (frame : Frame) (s sem : ℕ) → (offered ≡ true → nat_lt 0 (slice_index shared.counts sem) ≡ true)",
             "sem_taken : (frame : Frame) (s sem : ℕ) → (offered ≡ true → true ≡ true)"),
            ("OfferedChoices",
             "goes_at shared environment (status.InSem sem) = nat_lt 0 (slice_index shared.counts sem)",
             "goes_at shared environment (status.InSem sem) = true"),
            (("TransitionCases",
              "timed_sem_taken : (frame : Frame) (result : Dest) (s sem : ℕ) → (offered ≡ true → nat_lt 0 (slice_index shared.counts sem) ≡ true)",
              "timed_sem_taken : (frame : Frame) (result : Dest) (s sem : ℕ) → (offered ≡ true → true ≡ true)"),
             ("TransitionCases",
              "sem_wait_timed_out : (frame : Frame) (result : Dest) (s sem : ℕ) → (offered ≡ true → nat_lt 0 (slice_index shared.counts sem) ≡ false)",
              "sem_wait_timed_out : (frame : Frame) (result : Dest) (s sem : ℕ) → (offered ≡ true → true ≡ false)"),
             ("OfferedChoices",
              "let above : Bool = nat_lt 0 (slice_index shared.counts sem) in",
              "let above : Bool = true in"))),
    Machine("a_time_out_answers_without_its_mutex", "CondLaw", "waits/WaitSteps", "CondCalls",
            "(what.Acquired m ∷ what.Answer caller.CondTimedWait ETIMEDOUT ∷ [])) { writes = (result, ETIMEDOUT) ∷ []; shared = Some (shared_action.OwnMutex m id) }",
            "(what.Answer caller.CondTimedWait ETIMEDOUT ∷ [])) { writes = (result, ETIMEDOUT) ∷ [] }",
            ("TransitionCases",
             "(what.Acquired m ∷ what.Answer caller.CondTimedWait ETIMEDOUT ∷ [])) { writes = (result, ETIMEDOUT) ∷ []; shared = Some (shared_action.OwnMutex m t.id) })",
             "(what.Answer caller.CondTimedWait ETIMEDOUT ∷ [])) { writes = (result, ETIMEDOUT) ∷ [] })")),
    Machine("a_time_out_owns_no_mutex", "SharedLaw", "SharedChanges", "CondCalls",
            "{ writes = (result, ETIMEDOUT) ∷ []; shared = Some (shared_action.OwnMutex m id) }",
            "{ writes = (result, ETIMEDOUT) ∷ [] }",
            ("TransitionCases",
             "{ writes = (result, ETIMEDOUT) ∷ []; shared = Some (shared_action.OwnMutex m t.id) })",
             "{ writes = (result, ETIMEDOUT) ∷ [] })")),
    Machine("a_time_out_does_not_wait_for_its_mutex", "WakeLaw", "OwnWaits", "CondCalls",
            "expires c m = record (acts (what.WaitExpired c ∷ [])) { own = Some (own_action.SetStatus (status.Reacquire c m cause.TimedOut)) }",
            "expires c m = record (acts (what.WaitExpired c ∷ [])) { own = Some (own_action.SetStatus status.Running) }",
            ("TransitionCases",
             "(record (acts (what.WaitExpired c ∷ [])) { own = Some (own_action.SetStatus (status.Reacquire c m cause.TimedOut)) })",
             "(record (acts (what.WaitExpired c ∷ [])) { own = Some (own_action.SetStatus status.Running) })")),
    # pthread_cond_wait counts as a wait with a time.
    Machine("the_time_of_an_untimed_wait_expires", "CondLaw", "waits/WaitSteps", "ChoiceTable",
            "is_timed_wait (StatementIn frame s) = is_timed s",
            "is_timed_wait (StatementIn frame (statement.CondWait c m)) = true\nis_timed_wait (StatementIn frame s) = is_timed s"),
    Machine("a_sem_timedwait_takes_as_it_times_out", "SharedLaw", "SharedChanges", "SemCalls",
            "(what.Answer caller.SemTimedWait ETIMEDOUT ∷ [])) { writes = (result, ETIMEDOUT) ∷ [] }",
            "(what.Answer caller.SemTimedWait ETIMEDOUT ∷ [])) { writes = (result, ETIMEDOUT) ∷ []; shared = Some (shared_action.SetCount s (count - 1)) }",
            ("TransitionCases",
             "(what.Answer caller.SemTimedWait ETIMEDOUT ∷ [])) { writes = (result, ETIMEDOUT) ∷ [] })",
             "(what.Answer caller.SemTimedWait ETIMEDOUT ∷ [])) { writes = (result, ETIMEDOUT) ∷ []; shared = Some (shared_action.SetCount sem (slice_index shared.counts sem - 1)) })")),
    Machine("a_canceled_routine_leaves_its_control_busy", "OnceLaw", "OnceTransitions", "Actions",
            "onces_after tid (Some (own_action.BeginEnd why)) onces = map (abandoned tid) onces",
            "onces_after tid (Some (own_action.BeginEnd why)) onces = onces"),
    Machine("a_canceled_routine_leaves_its_control_done", "OnceLaw", "OnceStates", "OnceCalls",
            "abandoned tid (Busy id) = if nat_eq id tid then Fresh else Busy id",
            "abandoned tid (Busy id) = if nat_eq id tid then Done else Busy id"),
    # A thread that comes to a control while another one is in its init routine calls nothing, and goes on.
    Machine("a_second_caller_does_not_wait", "OnceLaw", "RoutineReturns", "ChoiceTable",
            "is_blocked (statement.CallOnce o f) shared = is_busy (once_at shared.onces o)",
            "is_blocked (statement.CallOnce o f) shared = false",
            ("TransitionCases",
             "routine_done : (frame : Frame) (o f : ℕ) → once_at shared.onces o ≡ OnceDone → TransitionCase",
             "routine_done : (frame : Frame) (o f : ℕ) → true ≡ true → TransitionCase"),
            ("OfferedChoices",
             "choice ≡ true → is_busy (once_at shared.onces o) ≡ false",
             "choice ≡ true → false ≡ false"),
            (("OfferedChoices",
              "(is_deliverable t.state t.pending) (is_busy (once_at shared.onces o))",
              "(is_deliverable t.state t.pending) false"),
             ("CaseOfTransition",
              "once_case frame o f (Busy id) is room = rests (StatementIn frame (statement.CallOnce o f)) status.Running (λ known. refl)",
              "once_case frame o f (Busy id) is room = routine_done frame o f refl"),
             ("CaseOfTransition",
              "once_case frame o f OnceDone is room = routine_done frame o f is",
              "once_case frame o f OnceDone is room = routine_done frame o f refl")),
            (("OnceCalls",
              "calls_once next o f id (Busy other) = no_change",
              "calls_once next o f id (Busy other) = goes_on next []"),)),
    Machine("a_routine_runs_again", "OnceLaw", "OnceTransitions", "OnceCalls",
            "{ own = Some (own_action.Leave Running); shared = Some (shared_action.SetOnce o Done) }",
            "{ own = Some (own_action.Leave Running); shared = Some (shared_action.SetOnce o Fresh) }",
            ("TransitionCases",
             "shared = Some (shared_action.SetOnce o OnceDone) })",
             "shared = Some (shared_action.SetOnce o Fresh) })")),
    Machine("a_child_has_fresh_controls", "CreationLaw", "creations/NewProcesses", "Actions",
            "shared = record p.shared { exit_value = None; restricted",
            "shared = record p.shared { onces = []; exit_value = None; restricted"),
    Machine("atexit_registers_nothing", "SharedLaw", "SharedChanges", "Actions",
            "shared_after (Some (shared_action.AddExit f)) s = record s { exit_functions = f ∷ s.exit_functions }",
            "shared_after (Some (shared_action.AddExit f)) s = s"),
    Machine("join_stores_0", "ResultLaw", "results/StoredResults", "ThreadCalls",
            "{ writes = (d, v) ∷ []; named = Some (named_action.EndJoin id) }",
            "{ writes = (d, 0) ∷ []; named = Some (named_action.EndJoin id) }",
            ("TransitionCases",
             "{ writes = (d, v) ∷ []; named = Some (named_action.EndJoin id) }",
             "{ writes = (d, 0) ∷ []; named = Some (named_action.EndJoin id) }")),
    Machine("a_time_out_stores_nothing", "ResultLaw", "results/StoredResults", "CondCalls",
            "{ writes = (result, ETIMEDOUT) ∷ []; shared = Some (shared_action.OwnMutex m id) }",
            "{ shared = Some (shared_action.OwnMutex m id) }",
            ("TransitionCases",
             "{ writes = (result, ETIMEDOUT) ∷ []; shared = Some (shared_action.OwnMutex m t.id) })",
             "{ shared = Some (shared_action.OwnMutex m t.id) })")),
    Machine("waitpid_stores_0", "ResultLaw", "results/StoredResults", "ForkCalls",
            "{ writes = (result, 0) ∷ (value, status) ∷ []; process = Some (process_action.Reap pid) }",
            "{ writes = (result, 0) ∷ (value, 0) ∷ []; process = Some (process_action.Reap pid) }",
            ("TransitionCases",
             "{ writes = (result, 0) ∷ (d, n) ∷ []; process = Some (process_action.Reap pid) }",
             "{ writes = (result, 0) ∷ (d, 0) ∷ []; process = Some (process_action.Reap pid) }")),
    Machine("the_old_state_is_not_stored", "ResultLaw", "results/StoredResults", "CancelCalls",
            "{ writes = (old, state_number state) ∷ []; own = Some (own_action.SetState (state_if enable)) }",
            "{ own = Some (own_action.SetState (state_if enable)) }",
            ("TransitionCases",
             "{ writes = (old, state_number t.state) ∷ []; own = Some (own_action.SetState (state_if enable)) }",
             "{ own = Some (own_action.SetState (state_if enable)) }")),
    Machine("fork_gives_the_child_an_id", "ResultLaw", "results/StoredResults", "ForkCalls",
            "returns_in_child next result child = record (goes_on next []) { writes = (result, 0) ∷ (child, 0) ∷ [] }",
            "returns_in_child next result child = record (goes_on next []) { writes = (result, 0) ∷ (child, 1) ∷ [] }",
            ("CaseOfTransition",
             "fork_returned frame result child at 0",
             "fork_returned frame result child at 1")),
    Machine("no_local_is_stored", "ResultLaw", "results/Stores", "Actions",
            "record at { frames = written frames_written o.writes at.frames }",
            "record at { frames = at.frames }"),
    Machine("a_call_takes_the_place_of_its_caller", "ResultLaw", "results/StoredResults", "Actions",
            "own_after (Some (own_action.Call f a kind)) t = record t { status = Running; frames = new_frame f a kind ∷ t.frames }",
            "own_after (Some (own_action.Call f a kind)) t = record t { status = Running; frames = new_frame f a kind ∷ without_first t.frames }"),
    Machine("canceled_value_0", "Once", "thread/Ends", "ThreadEnds",
            "end_value reason.Canceled = PTHREAD_CANCELED",
            "end_value reason.Canceled = 0"),
    Machine("a_new_thread_is_disabled", "CreationLaw", "creations/NewThreads", "World",
            "use Rattle.pct_model.specs.declared.state.State.TheVariants.{Enable}",
            "use Rattle.pct_model.specs.declared.state.State.TheVariants.{Disable as Enable}"),
    Machine("a_new_thread_gets_argument_0", "CreationLaw", "creations/NewThreads", "ThreadCalls",
            "(record { id = new; detached = detached; func = f; arg = v })",
            "(record { id = new; detached = detached; func = f; arg = 0 })",
            ("TransitionCases",
             "(record { id = new; detached = detached; func = f; arg = value frame v })",
             "(record { id = new; detached = detached; func = f; arg = 0 })")),
    Machine("a_child_keeps_the_request", "CreationLaw", "creations/NewProcesses", "Actions",
            "mode = t.mode; pending = false; handlers = t.handlers;",
            "mode = t.mode; pending = t.pending; handlers = t.handlers;"),
    Machine("a_child_has_no_owners", "CreationLaw", "creations/NewProcesses", "Actions",
            "shared = record p.shared { exit_value = None; restricted",
            "shared = record p.shared { owners = []; exit_value = None; restricted"),
    Machine("fork_calls_the_oldest_handler_first", "ForkLaw", "forks/LeftHandlers", "ForkCalls",
            "if is_prepare at.phase then reverse (range_with_len 0 at.next) else",
            "if is_prepare at.phase then range_with_len 0 at.next else"),
    Machine("fork_passes_over_a_handler", "ForkLaw", "forks/LeftHandlers", "ForkCalls",
            "{ next = if is_prepare at.phase then index else suc index }",
            "{ next = if is_prepare at.phase then index else suc (suc index) }"),
    Machine("fork_begins_again_after_a_handler", "ForkLaw", "forks/KeptForks", "ForkCalls",
            "leaves_handler (Some at) = record (acts []) { own = Some (own_action.Leave (status.Forking at)) }",
            "leaves_handler (Some at) = record (acts []) { own = Some (own_action.Leave status.Running) }",
            ("TransitionCases",
             "(record (acts []) { own = Some (own_action.Leave (status.Forking at)) })",
             "(record (acts []) { own = Some (own_action.Leave status.Running) })")),
    # The child is in fork still, after its call: where a fork follows directly, that one returns without being called.
    Machine("fork_does_not_end_in_the_child", "ForkLaw", "forks/ReturnedForks", "ForkCalls",
            "goes_on_after_handlers ChildPhase at new_pid (StatementIn frame (statement.Fork result child)) = returns_in_child (suc frame.pc) result child",
            "goes_on_after_handlers ChildPhase at new_pid (StatementIn frame (statement.Fork result child)) = record (goes_on (suc frame.pc) []) "
            "{ writes = (result, 0) ∷ (child, 0) ∷ []; own = Some (own_action.SetStatus (status.Forking at)) }",
            ("TransitionCases",
             "    waitpid_begun : (frame : Frame) (result d : Dest) (pid : Operand)",
             "    fork_stays_open : (frame : Frame) (result child : Dest) (at : ForkAt) → TransitionCase (StatementIn frame (statement.Fork result child)) (status.Forking at) "
             "(record (goes_on (suc frame.pc) []) { writes = (result, 0) ∷ (child, 0) ∷ []; own = Some (own_action.SetStatus (status.Forking at)) })\n"
             "    waitpid_begun : (frame : Frame) (result d : Dest) (pid : Operand)"),
            ("CaseOfTransition",
             "fork_returned frame result child at 0",
             "fork_stays_open frame result child at"),
            (("CaseOfTransition",
              "{fork_failed, fork_returned, waitpid_begun,",
              "{fork_failed, fork_returned, fork_stays_open, waitpid_begun,"),)),
    Machine("a_thread_with_a_handler_left_exits", "Ends", "steps/EndStages", "ThreadEnds",
            "= record (acts (what.HandlerRun f a ∷ [])) { own = Some (own_action.RunHandler f a) }",
            "= record (acts (what.ExitBegun 5 ∷ [])) { own = Some own_action.BeginExit; shared = Some (shared_action.BeginExit 5) }",
            ("TransitionCases",
             "(record (acts (what.HandlerRun f a ∷ [])) { own = Some (own_action.RunHandler f a) })",
             "(record (acts (what.ExitBegun 5 ∷ [])) { own = Some own_action.BeginExit; shared = Some (shared_action.BeginExit 5) })")),
    Machine("asynchronous_is_deferred", "CancelLaw", "requests/SetCancelability", "CancelCalls",
            "mode_if true = Asynchronous",
            "mode_if true = Deferred"),
    # The call is a stop, and sets 77.
    Machine("a_stop_sets_a_value", "Ends", "steps/KeptValues", "KeyCalls",
            "sets_specific next k v = record (goes_on next []) { own = Some (own_action.SetSpecific k v) }",
            "sets_specific next k v = record (stops KeyId) { own = Some (own_action.SetSpecific k 77) }",
            ("TransitionCases",
             "(record (goes_on (suc frame.pc) []) { own = Some (own_action.SetSpecific (value frame key) (value frame v)) })",
             "(record (stops KeyId) { own = Some (own_action.SetSpecific (value frame key) 77) })"),
            ("TransitionCases",
             "use Rattle.pct_model.specs.declared.transition.NamedAction.TheVariants as named_action",
             "use Rattle.pct_model.specs.declared.stop.Why.TheVariants.{KeyId}\nuse Rattle.pct_model.specs.declared.transition.NamedAction.TheVariants as named_action"),
            (),
            (("KeyCalls",
              "use Rattle.pct_model.specs.Transitions.{goes_on, no_change}",
              "use Rattle.pct_model.specs.Transitions.{goes_on, no_change, stops}\nuse Rattle.pct_model.specs.declared.stop.Why.TheVariants.{KeyId}"),)),
    Machine("disabled_is_0", "ResultLaw", "results/StoredResults", "CancelCalls",
            "state_number Disable = 1",
            "state_number Disable = 0"),
    Machine("handlers_return_at_once", "FrameLaw", "frames/MovedFrames", "Actions",
            "thread_at (Some pc) t = record t { status = Running; frames = at_pc pc t.frames }",
            "thread_at (Some pc) t = elim t.frames [ [] ↦ t | frame ∷ below ↦ elim frame.kind [ "
            "kind.Handler ↦ record t { status = Ending; frames = [] } | _ ↦ record t { status = Running; frames = at_pc pc t.frames } ] ]"),
    Machine("a_called_function_has_a_local", "FrameLaw", "frames/MovedFrames", "Actions",
            "own_after (Some (own_action.Call f a kind)) t = record t { status = Running; frames = new_frame f a kind ∷ t.frames }",
            "own_after (Some (own_action.Call f a kind)) t = record t { status = Running; frames = record (new_frame f a kind) { locals = a ∷ 7 ∷ 0 ∷ 0 ∷ 0 ∷ 0 ∷ 0 ∷ 0 ∷ [] } ∷ t.frames }"),
    Machine("a_test_is_always_true", "FrameLaw", "frames/FrameCases", "ScriptStatements",
            "after_test body pc v = if nat_eq v 0 then after_block body pc else suc pc",
            "after_test body pc v = suc pc"),
    Machine("an_end_gives_the_slot_back", "StackLaw", "KeptSlots", "ThreadSlots",
            "was_reclaimed t = is_ended_status t.status && (t.joined || t.detached)",
            "was_reclaimed t = is_ended_status t.status"),
    Machine("a_detach_gives_the_slot_back", "StackLaw", "KeptSlots", "ThreadSlots",
            "was_reclaimed t = is_ended_status t.status && (t.joined || t.detached)",
            "was_reclaimed t = is_ended_status t.status && t.joined || t.detached"),
    Machine("a_new_thread_takes_the_slot_of_an_ended_one", "StackLaw", "LoneHolders", "ThreadSlots",
            "is_free slots threads s = not (list_any (λ t. is_on slots s t && holds_slot t) threads)",
            "is_free slots threads s = not (list_any (λ t. is_on slots s t && holds_slot t && not t.ended) threads)"),
)


def copy_crates(folder):
    """Copies the crates into the folder, those of LAWS as one."""
    shutil.copy(ROOT / "HANDLES", folder)
    uses = dict(re.findall(r"^(\w+):(.*)$", (ROOT / "crates.txt").read_text(), re.M))
    for crate in BELOW:
        shutil.copytree(ROOT / "crates" / crate, folder / "crates" / crate)
    shutil.copytree(ROOT / "crates" / LAWS[-1] / "src", folder / "crates" / LAWS[-1] / "src")
    for crate in LAWS:
        for path in sorted((ROOT / "crates" / crate).rglob("*.antt")):
            copy = folder / "crates" / LAWS[-1] / path.relative_to(ROOT / "crates" / crate)
            copy.parent.mkdir(parents=True, exist_ok=True)
            # Lib.antt, which each of them has, gets the lines of all.
            with copy.open("a") as file:
                file.write(re.sub(rf"\bRattle\.(?:{'|'.join(LAWS)})\.", f"Rattle.{LAWS[-1]}.", path.read_text()))
    uses[LAWS[-1]] = "".join(f" {crate}" for crate in BELOW if any(crate in uses[law].split() for law in LAWS))
    (folder / "crates.txt").write_text("".join(f"{crate}:{uses[crate]}\n" for crate in (*BELOW, LAWS[-1])))


def errors(folder):
    """The proof files with errors when the laws are proved in the folder, or None if they are proved."""
    ran = subprocess.run(["rt", "check"], cwd=folder / "crates" / LAWS[-1], stdout=subprocess.PIPE, stderr=subprocess.STDOUT, timeout=SECONDS)
    log = ran.stdout.decode(errors="replace")
    if ran.returncode == 0:
        return None
    # A lemma that uses one which was rejected is not checked, and has a line of its own.
    found = re.findall(r"^(?:\./)?proofs/(\S+?)\.antt:\d+:\d+: error(?!.*(?:was|were) not checked)", log, re.M)
    return sorted(set(found))


def tried(machine, folder):
    """Why the machine is not refused as it should be, or None, and the files in which its proofs fail."""
    changes = [(folder / SPECS, machine.file, machine.line, machine.wrong), *((folder / SPECS, *change) for change in machine.lines)]
    changes += [(folder / CASES, *change) for change in (machine.case, machine.offer, *machine.others) if change]
    texts, changed = {}, {}
    for parent, file, line, wrong in changes:
        path = parent / f"{file}.antt"
        texts.setdefault(path, path.read_text())
        text = changed.get(path, texts[path])
        if text.count(line) != 1:
            return f"{file}.antt has no such line, or more than one", []
        changed[path] = text.replace(line, wrong)
    try:
        for path, text in changed.items():
            path.write_text(text)
        found = errors(folder)
    finally:
        for path, text in texts.items():
            path.write_text(text)
    if found is None:
        return "its laws are proved", []
    files = found
    if machine.proof not in files:
        return f"no error in {machine.proof}.antt, but in {', '.join(files) or 'none of the proofs'}", files
    return None, files


def main():
    names = sys.argv[1:] or [machine.name for machine in MACHINES]
    unknown = set(names) - {machine.name for machine in MACHINES}
    if unknown:
        sys.exit(f"there is no machine {', '.join(sorted(unknown))}")
    passed = failed = 0
    with tempfile.TemporaryDirectory() as name:
        folder = pathlib.Path(name)
        copy_crates(folder)
        for machine in MACHINES:
            if machine.name not in names:
                continue
            why, files = tried(machine, folder)
            if why is None:
                passed += 1
                print(f"refused {machine.name} ({machine.law}): {', '.join(files)}", flush=True)
            else:
                failed += 1
                print(f"not refused {machine.name} ({machine.law}): {why}", flush=True)
    print(f"{passed} passed, {failed} failed")
    sys.exit(1 if failed or not passed else 0)


if __name__ == "__main__":
    main()
