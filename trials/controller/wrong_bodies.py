#!/usr/bin/env python3
"""Plants wrong bodies in a copy of the controller, one at a time, and runs the test that must notice each. Before that,
these tests must pass on the unchanged controller. Some need a machine that isn't busy: a test is run up to three times
until it passes, and must fail twice on a wrong body (a search, once). For a search, the trial prints how deep it went
before it found a broken promise, and how many states it had seen.

usage: wrong_bodies.py [--check | NAME..]
Without names, all wrong bodies are planted. It exits with status 1 if one isn't noticed. First, it checks that each can
be planted in the current controller; with --check, it does only that.

Run it in a network namespace of its own. It needs the Debian packages that `controller/test --missing` names, and the
gateway in dist/, or where BRIDGE says.
"""
import os
import pathlib
import re
import shutil
import subprocess
import sys
import tempfile
import time
from dataclasses import dataclass

ROOT = pathlib.Path(__file__).resolve().parent.parent.parent
CONTROLLER = ROOT / "controller"


@dataclass
class Wrong:
    """Each old text occurs exactly once in the module. A test is MODULE:FUNCTION for EUnit (a generator ends in `_`),
    or SUITE:CASE for Common Test."""
    name: str
    module: str
    edits: list
    test: str


SEARCH = "lobby_search_tests:"
PROMISE = "lobby_promise_SUITE:"
AUDIT, WEB = "lobby_audit_tests:", "lobby_web_SUITE:"
ANSWERS, DIALOGS, HTTP = "lobby_answers_SUITE:", "lobby_dialogs_SUITE:", "lobby_http_SUITE:"
CONFERENCE, CORE, GATEWAY = "lobby_conference", "lobby_room_core", "lobby_gateway_core"

BODIES = [
    Wrong("the fence is ignored", "lobby_h248",
          [("name = integer_to_list(Number) ++", "name = integer_to_list(1 + 0 * Number) ++")],
          SEARCH + "a_node_was_cut_off_behind_a_fence_test_"),
    Wrong("each run has the same number", "lobby_gateway",
          [("    Above = max(erlang:system_time(second), 1 + lobby_store:get(", "    Above = max(1, 0 + lobby_store:get(")],
          "lobby_gateways_SUITE:an_old_request_is_stale"),
    Wrong("a run's number isn't kept", "lobby_gateway",
          [("    ok = lobby_store:put(lobby_settings, {number, Name}, Number),\n", "")],
          "lobby_gateways_SUITE:numbers_only_rise"),
    Wrong("a number falls if the store is lost", "lobby_gateway",
          [("    Above = max(erlang:system_time(second), 1 +", "    Above = max(0, 1 +")],
          "lobby_gateways_SUITE:numbers_only_rise"),
    Wrong("the nodes of a pair have the same numbers", "lobby_gateway",
          [("(Above + length([N || N <- mnesia:system_info(db_nodes), N < node()])) rem 2", "Above rem 2")],
          "lobby_pair_SUITE:the_other_node_takes_over"),
    Wrong("what the release before has stored isn't read", "lobby_store_format",
          [("unpack(_, {version, 3, Value}) -> {ok, Value};\n", "")],
          "lobby_store_format_tests:what_the_release_before_writes_test"),
    Wrong("the own number before earlier requests are answered", GATEWAY,
          [("    case earlier(Again) orelse lists:keymember(", "    case false andalso earlier(Again) orelse lists:keymember(")],
          "lobby_gateway_core_tests:earlier_requests_are_answered_first_test"),
    Wrong("something is ended before earlier requests are answered", GATEWAY,
          [("    case awaits({clean, Place}, G) orelse earlier(G) of", "    case awaits({clean, Place}, G) orelse false andalso earlier(G) of")],
          "lobby_gateway_core_tests:earlier_requests_are_answered_first_test"),
    Wrong("earlier requests are repeated seldom while a gateway is awaited", GATEWAY,
          [("Kind = case State of away -> forever; _ -> patiently end", "Kind = case State of away -> patiently; _ -> patiently end")],
          "lobby_gateway_core_tests:earlier_requests_are_repeated_test"),
    Wrong("earlier replies acknowledged with the own number", "lobby_transactions",
          [("[{Number, Quiet} || Sender =:= Own] ++ Answered", "[{Number, Quiet} || Sender =/= none] ++ Answered")],
          "lobby_gateway_core_tests:earlier_requests_are_answered_first_test"),
    Wrong("a copy of an earlier reply is taken for an own one", "lobby_transactions",
          [("next = max(Next, following(Number))})).", "next = max(Next, 0 * following(Number))})).")],
          "lobby_transactions_tests:a_kept_request_keeps_its_names_test"),
    Wrong("what can't be run any more is repeated for ever", GATEWAY,
          [("unknown = [S || S = {Sender, _, _} <- Unknown, Sender =:= Own]},",
            "unknown = [S || S = {Sender, _, _} <- Unknown, Sender =:= Own orelse true]},")],
          SEARCH + "what_is_repeated_in_vain_test_"),
    Wrong("an earlier number that is too low is taken for the own one", GATEWAY,
          [("case earlier(G) of true -> Left;", "case false andalso earlier(G) of true -> Left;")],
          "lobby_gateway_core_tests:an_earlier_number_that_is_too_low_is_given_up_test"),
    Wrong("a late answer to a check counts", GATEWAY,
          [("checked(Now, G = #gateway{checked = asked}) ->", "checked(Now, G = #gateway{checked = Is}) when Is =:= asked; Is =:= none ->")],
          "lobby_gateway_core_tests:a_slow_answer_is_none_of_another_controller_test"),
    Wrong("a gateway that is being cleaned isn't checked", GATEWAY,
          [("when State =/= serving, State =/= drained, Is =/= fenced", "when State =/= serving, State =/= drained, State =/= cleaning, Is =/= fenced")],
          "lobby_gateway_core_tests:one_that_does_not_answer_is_checked_test"),
    Wrong("a number that is too low isn't noticed", GATEWAY,
          [("  when Now - Since >= Retry * Tries ->", "  when Now - Since >= 1000 * Retry * Tries ->")],
          "lobby_gateways_SUITE:one_that_is_fenced_off_says_so"),
    Wrong("a gateway that is being drained takes rooms", "lobby_placement",
          [("{Handle, Load = #{draining := false}} <- All]", "{Handle, Load} <- All]")],
          "lobby_gateways_SUITE:one_is_drained"),
    Wrong("rooms aren't told to leave any more after a failure", "lobby_gateway_core",
          [("Leave = [{timer, leave, 0} || G#gateway.draining],", "Leave = [],")],
          SEARCH + "what_drains_a_gateway_fails_test_"),
    Wrong("a drained gateway keeps our termination", "lobby_gateway_core",
          [("Action = #{context => Context, commands => [{subtract_optional, T}]},\n    Left",
            "Action = #{context => Context, commands => [{audit, T, [media]}]},\n    Left")],
          "lobby_gateways_SUITE:one_is_drained"),
    Wrong("what a room leaves behind is nobody's", "lobby_gateway_core",
          [("              orelse not Given andalso GatewayOf(Room) =/= Own].", "              orelse not Given andalso false andalso GatewayOf(Room) =/= Own].")],
          SEARCH + "what_drains_a_gateway_fails_test_"),
    Wrong("activate before topology", CONFERENCE,
          [("first_mode(_, _) -> inactive.", "first_mode(_, Mode) -> Mode.")],
          PROMISE + "a_newcomer_whose_topology_is_refused"),
    Wrong("skip a rule", CONFERENCE,
          [("    lobby_rules:flows(heard(Rows), Rules).",
            "    lobby_rules:flows(heard(Rows), lists:sublist(Rules, length(Rules) - 1))."),
           ("    sets:union(lobby_rules:flows(As, Bs, Rules), lobby_rules:flows(Bs, As, Rules)).",
            "    Fewer = lists:sublist(Rules, length(Rules) - 1),\n"
            "    sets:union(lobby_rules:flows(As, Bs, Fewer), lobby_rules:flows(Bs, As, Fewer)).")],
          SEARCH + "coaching_test_"),
    Wrong("move without silencing", CONFERENCE,
          [("++ [{Id, inactive} || Id <- maps:keys(Departing)],", ","),
           ("termination = T, mode = inactive}} = Held,", "termination = T}} = Held,"),
           ("commands => [{move, T, #{mode => inactive}}]},", "commands => [{move, T, #{mode => sendRecv}}]},")],
          SEARCH + "moves_test_"),
    Wrong("let go before silencing", CONFERENCE,
          [("fun subtract/1, fun silence/1,", "fun subtract/1, fun release/1, fun silence/1,"),
           ("fun settle/1, fun release/1]", "fun settle/1]"),
           ("termination = T, mode = inactive}} = Held,", "termination = T}} = Held,")],
          SEARCH + "moves_test_"),
    Wrong("add before the old room has let him go", CONFERENCE,
          [("not is_map_key(Id, Held), not is_asked(Id, Arriving)].", "not is_map_key(Id, Held)].")],
          SEARCH + "moves_test_"),
    Wrong("go on if silencing fails", CONFERENCE,
          [("        [] -> Next();\n        _ -> failed(C)\n", "        _ -> Next()\n"),
           ("done(_, {error, _}, C) ->\n    failed(C);",
           "done(Step, {error, Code}, C) when element(1, Step) =/= modify ->\n    _ = Code, failed(C);\n"
           "done({modify, Modes}, {error, _}, C) ->\n    {[], lists:foldl(fun set_mode/2, C, Modes)};")],
          PROMISE + "who_cannot_be_silenced_does_not_move"),
    Wrong("no inventory", CONFERENCE,
          [("Holdings),\n    doubt(Resumed).", "Holdings),\n    Resumed.")],
          SEARCH + "two_failures_in_a_room_test_"),
    Wrong("no barrier", GATEWAY,
          [("{Waiting, Ready} = lists:partition(Open, Asking),",
            "{Waiting, Ready} = lists:partition(fun(_) -> false andalso Open end, Asking),")],
          SEARCH + "two_failures_for_who_moves_far_test_"),
    Wrong("stray left by the room", CONFERENCE,
          [("leaving = lists:usort(Strays ++ Leaving), doubts", "leaving = Leaving, doubts")],
          PROMISE + "a_stray_is_ended"),
    Wrong("stray left by the gateway's process", GATEWAY,
          [("is_left_behind(_, error) -> true;", "is_left_behind(_, error) -> false;"),
           ("orelse not Given andalso GatewayOf(Room) =/= Own].", "orelse not Given andalso GatewayOf(Room) =:= Own andalso false].")],
          "lobby_gateways_SUITE:rooms_that_are_gone_end_when_a_gateway_returns"),
    Wrong("isolate kept in the room", "lobby_person",
          [("Row#{room := To, from := Room, moved := Version + 1, waiting := false}",
            "Row#{room := To, from := Room, moved := Version + 1, waiting := false, isolated := false}")],
          SEARCH + "moves_test_"),
    Wrong("answer before the gateway has it", "lobby_person",
          [("fun({V, Tag}) -> V =< Version andalso may_answer(Tag, Everywhere) end, {ok, Local},",
            "fun({V, Tag}) -> V =< Version + 1 andalso may_answer(Tag, Everywhere) end, {ok, Local},")],
          SEARCH + "a_race_test_"),
    Wrong("a row isn't stored", "lobby_person",
          [("{P#person{row = New}, [{store, New}, {want, Room, New}]}.",
            "{P#person{row = New}, [{want, Room, New}]}.")],
          SEARCH + "a_process_is_killed_test_"),
    Wrong("stale phones not awaited", "lobby_person",
          [("may_answer({asked, _}, Everywhere) -> Everywhere;", "may_answer({asked, _}, _) -> true;")],
          PROMISE + "a_phone_still_sends_to_a_gateway_out_of_reach"),
    Wrong("a muted talker's mode unchanged", CONFERENCE,
          [("sendrecv, muted := true}) -> sendOnly;", "sendrecv, muted := true}) -> sendRecv;")],
          SEARCH + "changes_test_"),
    Wrong("nothing to change once someone has left", CONFERENCE,
          [("    agree(not Agreed, Without).", "    agree(false andalso Agreed, Without).")],
          SEARCH + "changes_test_"),
    Wrong("guard left out", GATEWAY,
          [("guarded({_, {room, _, _, _}}, Action, #gateway{sentinel = {Context, T, _}}) ->"
            " Action#{guard => {Context, T}};",
            "guarded({_, {room, _, _, _}}, Action, _) -> Action;")],
          PROMISE + "a_gateway_that_begins_anew_runs_nothing"),
    Wrong("requests not kept before they are sent", GATEWAY,
          [("    act({request, Number, {Sent, Purpose}}, G);", "    _ = {Number, Sent, Purpose}, G;")],
          SEARCH + "a_gateways_process_is_killed_when_somebody_moves_far_test_"),
    Wrong("replies acknowledged at once", "lobby_transactions",
          [("Quiet = Now + maps:get(quiet, Options),", "Quiet = Now + 0 * maps:get(quiet, Options),")],
          SEARCH + "a_datagram_to_a_new_room_test_"),
    Wrong("seats not reserved", "lobby_seats",
          [("when Used =< Max, Contexts =< MaxContexts ->", "when Used + Max + Contexts + MaxContexts > 0 ->")],
          "lobby_seats_tests:what_is_reserved_is_taken_test"),
    Wrong("a refused Add ends the call", CONFERENCE,
          [("added({{#{id := Id}, _}, {add, _, {error, _}}}, C) ->\n    {[{full, Id}], block(Id, C)}.",
            "added({{#{id := Id}, _}, {add, _, {error, Code}}}, C) ->\n"
            "    {[{refused, Id, Code, none}], block(Id, C)}.")],
          PROMISE + "who_is_refused_a_seat_waits"),
    Wrong("large rooms not closed again", CONFERENCE,
          [("C#conference{open = lobby_topology:everyone([Id || #{id := Id} <- held_members(C)]), doubts",
            "C#conference{doubts")],
          PROMISE + "a_large_room_is_closed_again"),
    Wrong("a lock lost at a restart", CORE,
          [("settings = Settings, stale = maps:merge(Arriving, Stale), saved = Kept}",
            "settings = maps:remove(locked, Settings), stale = maps:merge(Arriving, Stale), saved = Kept}")],
          PROMISE + "a_lock_outlives_its_room"),
    Wrong("the lease isn't looked at", "lobby_lease_core",
          [("looked(#{lease := false}, _, #state{permit = serves}) ->\n"
            "    throw({stop, \"another node has the lease\"});\n", "")],
          "lobby_lease_core_tests:it_ends_without_the_lease_test"),
    Wrong("hold does nothing", "lobby_lease",
          [("within(Passed, Gap) when Passed =< Gap ->", "within(Passed, Gap) when Passed =< Gap; Passed > 0 ->")],
          "lobby_pair_SUITE:after_a_gap_nothing_is_sent"),
    Wrong("nothing holds before a request is sent", "lobby_gateway",
          [("    ok = lobby_lease:hold(),\n    %% A message that can't", "    %% A message that can't")],
          "lobby_pair_SUITE:nothing_is_sent_without_a_look_at_the_lease"),
    Wrong("a gap 100 times as long, for the node that hung", "lobby_lease",
          [("persistent_term:put(?MODULE, {Times, Gap}),", "persistent_term:put(?MODULE, {Times, 100 * Gap}),")],
          "lobby_pair_SUITE:after_a_gap_nothing_is_sent"),
    Wrong("a gap 100 times as long, for the other node", "lobby_lease_core",
          [("  when Now - At > Gap ->", "  when Now - At > 100 * Gap ->")],
          "lobby_lease_core_tests:it_drops_a_silent_node_once_test"),
    Wrong("rows written asynchronously", "lobby_store",
          [("mnesia:sync_dirty(Change).", "mnesia:async_dirty(Change).")],
          "lobby_pair_SUITE:a_standby_that_hangs"),
    Wrong("answers don't wait for what the standby lacks", "lobby_member",
          [("    case lobby_lease:durable() of\n        ok ->",
            "    case lobby_lease:durable() of\n        _ when From =/= none ->")],
          "lobby_pair_SUITE:a_change_waits_for_the_standby"),
    Wrong("a request that makes a context doesn't wait for what the standby lacks", "lobby_transactions",
          [("    Context =:= new orelse lists:keymember(add_optional, 1, Commands).", "    is_integer(Context) andalso lists:keymember(add_optional, 1, Commands).")],
          SEARCH + "the_other_node_takes_over_a_new_room_test_"),
    Wrong("when it is sent again, it doesn't wait", "lobby_transactions",
          [("lists:foldl(fun(Number, Acc) -> begun(Number, Now, Acc) end,", "lists:foldl(fun(Number, Acc) -> sent(Number, Now, Acc) end,")],
          SEARCH + "a_gateway_resumes_for_a_new_room_test_"),
    Wrong("a gateway's process waits for nothing", "lobby_gateway",
          [("    {noreply, case lobby_lease:durable() of\n        ok ->", "    {noreply, case lobby_lease:durable() of\n        _ when is_tuple(Event) ->")],
          "lobby_pair_SUITE:a_conference_waits_for_the_standby"),
    Wrong("an Add to a context that is there doesn't wait", "lobby_transactions",
          [("    Context =:= new orelse lists:keymember(add_optional, 1, Commands).", "    Context =:= new orelse Commands =:= [].")],
          SEARCH + "the_other_node_takes_over_a_room_that_ends_test_"),
    Wrong("what a room of the same name has left is taken for its own", GATEWAY,
          [("    map_get(Room, Latest) =/= Context.", "    map_get(Room, Latest) < Context.")],
          SEARCH + "the_other_node_takes_over_who_comes_back_test_"),
    Wrong("no limit for the rooms of one address", "lobby_admission",
          [("andalso map_size(Rooms) >= MaxRooms,", "andalso map_size(Rooms) >= MaxRooms + 1000,")],
          ANSWERS + "one_address_shuts_out_nobody"),
    Wrong("messages as fast as they come", "lobby_buckets",
          [("when Missing =< 2000 * Rate ->", "when Missing =< 200000 * Rate ->")],
          ANSWERS + "too_fast"),
    Wrong("anybody asserts an identity", "lobby_sip",
          [("case {lobby_auth:is_in(Address, Proxies) andalso lobby_auth:identity(Request), map_size(Users)} of",
            "case {is_list(Proxies) andalso lobby_auth:identity(Request), map_size(Users)} of")],
          ANSWERS + "a_proxy_is_trusted"),
    Wrong("what can't be read is an error", "lobby_sip_decoder",
          [("try {ok, Reader(Text)} catch error:_ -> error end.", "{ok, Reader(Text)}.")],
          ANSWERS + "any_bytes"),
    Wrong("a slow reader of events is kept", "lobby_event_stream",
          [("{send_timeout, 2000}", "{send_timeout, infinity}")],
          "lobby_http_SUITE:a_watcher_that_does_not_read"),
    Wrong("whatever fails starts again at once", "lobby_keeper",
          [("start_after((N - 1) * ?PAUSE,", "start_after((N - N) * ?PAUSE,")],
          "lobby_calls_SUITE:a_call_outlives_a_slow_supervisor"),
    Wrong("a call is deleted only once", "lobby_rtpengine",
          [("again(Request = #{command := delete}) ->", "again(Request = #{command := deleted}) ->")],
          "lobby_rtpengine_tests:a_late_offer_test_"),
    Wrong("the mode of a private log is changed", "lobby_audit",
          [("Mode band 8#077 =:= 0 -> ok", "Mode band 8#077 =:= 8#1000 -> ok")],
          AUDIT + "a_log_is_private_test"),
    Wrong("the end of the store isn't noticed", "lobby_app",
          [("[lobby_sup, mnesia_sup]", "[lobby_sup]")],
          "lobby_calls_SUITE:the_store_ends"),
    Wrong("a failure at the start is forgotten", "lobby_keeper",
          [("    ok = gen_server:cast(name(Kind), {failed, Name, Reason}),\n", "")],
          "lobby_calls_SUITE:a_call_that_fails_at_its_start_is_started_again"),
    Wrong("old rooms beyond the limit for new ones", "lobby_keeper",
          [("kept(room) -> lists:usort(lobby_store:keys(lobby_rooms) ++ lobby_store:groups(lobby_members));",
            "kept(room) -> lists:sublist(lists:usort(lobby_store:keys(lobby_rooms) ++ lobby_store:groups(lobby_members)), 10000);")],
          PROMISE + "more_rooms_than_are_allowed_start_again"),
    Wrong("a restored call forgets where he comes from", "lobby_person",
          [("restored(Row) ->\n    #person{row = Row}.", "restored(Row) ->\n    #person{row = Row#{from := none}}.")],
          SEARCH + "two_processes_are_killed_test_"),
    Wrong("an old request for somebody counts", CORE,
          [("        Later when Later > Moved ->", "        Later when Later > Moved + 100 ->")],
          SEARCH + "who_comes_back_test"),
    Wrong("what a node moved is another room's", "lobby_seats",
          [("when Of =/= Room, In =:= Context -> other;", "when Of =/= Room, In + Context > 0 -> other;")],
          SEARCH + "the_other_node_takes_over_test_"),
    Wrong("guard left out, before anybody is there", GATEWAY,
          [("guarded({_, {room, _, _, _}}, Action, #gateway{sentinel = {Context, T, _}}) ->"
            " Action#{guard => {Context, T}};",
            "guarded({_, {room, _, _, _}}, Action, _) -> Action;")],
          SEARCH + "a_gateway_begins_anew_test_"),
    Wrong("a gateway that returns is not cleaned", GATEWAY,
          [("    lists:foldl(fun(Place, Acc) -> end_place(Place, Now, Acc) end, unknown(Unknown, Now, G), Contexts).",
            "    _ = Contexts, (unknown(Unknown, Now, G))#gateway{contexts = []}.")],
          SEARCH + "a_gateway_resumes_test_"),
    Wrong("release changes the role", "lobby_person",
          [("changed(Tag, maps:merge(Row, Change), P);",
            "changed(Tag, maps:merge(Row, case Change of\n"
            "        #{isolated := false} -> Change#{role => <<\"member\">>};\n        _ -> Change\n    end), P);")],
          SEARCH + "rules_change_test_"),
    Wrong("new rules release everybody", CONFERENCE,
          [("agree(true, C#conference{rules = Rules}).",
            "Rows = [Row#{isolated := false} || Row <- C#conference.members],\n"
            "    agree(true, C#conference{rules = Rules, members = Rows}).")],
          SEARCH + "rules_change_test_"),
    Wrong("rules aren't stored", CORE,
          [("        Before -> Room;\n        Kept -> Room#room{saved",
            "        Before -> Room;\n"
            "        Kept when Before =/= none, map_get(gateway, Kept) =:= map_get(gateway, Before) -> Room;\n"
            "        Kept -> Room#room{saved")],
          SEARCH + "rules_change_test_"),
    Wrong("rules are answered at once", CORE,
          [("Room#room{conference = lobby_conference:set_rules(All, C), asked = [From | Asked],",
            "(act({reply, From, ok}, Room))#room{conference = lobby_conference:set_rules(All, C), asked = Asked,")],
          SEARCH + "rules_about_members_test_"),
    Wrong("a new role changes nothing", CONFERENCE,
          [("layers(#{role := Role, isolated := Isolated, waiting := Waiting}) -> {Role, Isolated, Waiting};",
            "layers(#{isolated := Isolated, waiting := Waiting}) -> {Isolated, Waiting};")],
          SEARCH + "rules_and_roles_change_test_"),
    Wrong("the door is open", CONFERENCE,
          [("mode(#{waiting := true}) -> inactive;\n", ""),
           ("isolated := false, waiting := false} <- Rows]", "isolated := false} <- Rows]")],
          SEARCH + "a_door_test_"),
    Wrong("speech before the ACK", CONFERENCE,
          [("mode(Row = #{acknowledged := false}) -> common(mode(Row#{acknowledged := true}), recvOnly);\n", "")],
          SEARCH + "a_door_test_"),
    Wrong("a role comes after audio", "lobby_call",
          [("Wanted = Known#{room => Room,", "Wanted = (maps:remove(role, Known))#{room => Room,")],
          PROMISE + "a_role_comes_before_audio"),
    Wrong("who calls again isn't isolated", "lobby_identity",
          [("#{isolated => lobby_store:has(", "#{isolated => Named =:= #{} andalso lobby_store:has(")],
          PROMISE + "who_calls_again_stays_isolated"),
    Wrong("a muted caller may vanish", CORE,
          [("{#{id := Id, direction := sendrecv}, T} <- found(C),",
            "{#{id := Id, direction := sendrecv, muted := false}, T} <- found(C),")],
          PROMISE + "a_muted_caller_vanishes"),
    Wrong("an audit that the gateway answers without braces", CONFERENCE,
          [("when map_size(Held) < 2; map_size(Held) > ?MAX_AUDITED", "when map_size(Held) > ?MAX_AUDITED"),
           ("audit_topology => true, commands => [{audit, T, []}]}", "audit_topology => true, commands => [T || T =:= none]}")],
          PROMISE + "the_last_one_in_a_context"),
    Wrong("a room that fails is started again for ever", "lobby_keeper",
          [("-define(FAILURES, 3).", "-define(FAILURES, 1000000).")],
          PROMISE + "a_room_that_fails_is_set_aside"),
    Wrong("a member is looked for among all", "lobby_member",
          [("change(Id, Change) ->\n", "change(Id, Change) ->\n    _ = lobby_store:all(lobby_calls),\n")],
          PROMISE + "nobody_else_is_looked_at"),
    Wrong("a viewer may POST and DELETE", "lobby_http",
          [("{_, _, _, _} when Role =:= viewer ->", "{_, _, _, _} when Role =:= nobody ->")],
          "lobby_http_SUITE:tokens"),
    Wrong("values aren't counted", "lobby_sip_decoder",
          [("-define(MAX_PARTS, 160).", "-define(MAX_PARTS, 16000).")],
          ANSWERS + "messages"),
    Wrong("sessions last as long as asked", "lobby_sip_decoder",
          [("seconds(Text) -> min(number(Text, infinity), 86400).", "seconds(Text) -> number(Text, infinity).")],
          ANSWERS + "a_long_session"),
    Wrong("what never served is awaited", GATEWAY,
          [("    G = #gateway{config = Config, sender = Sender, settled = Settled, transactions = T,",
            "    G = #gateway{config = Config, sender = Sender, settled = Settled, transactions = lobby_transactions:pause(T),")],
          "lobby_gateway_core_tests:one_that_never_served_is_sent_requests_test"),
    Wrong("nobody misses a lost request", GATEWAY,
          [("        false -> act({tell, Room, {answer, Reference, {error, lost}}}, G)\n", "        false -> G\n")],
          "lobby_gateway_core_tests:a_lost_request_is_reported_test"),
    Wrong("one reader reads all messages", "lobby_sip_reader",
          [("    N = 1 + erlang:phash2(Source, tuple_size(Pids)),", "    N = 1 + 0 * erlang:phash2(Source, tuple_size(Pids)),")],
          ANSWERS + "a_slow_reader_stops_only_its_senders"),
    Wrong("any reader reads a message", "lobby_sip_reader",
          [("    N = 1 + erlang:phash2(Source, tuple_size(Pids)),", "    N = 1 + erlang:phash2({Source, Message}, tuple_size(Pids)),")],
          ANSWERS + "a_slow_reader_stops_only_its_senders"),
    Wrong("any number of messages waits to be read", "lobby_sip_reader",
          [("    case counters:get(Waiting, N) < ?MAX_WAITING of", "    case counters:get(Waiting, N) < 100 * ?MAX_WAITING of")],
          ANSWERS + "a_slow_reader_stops_only_its_senders"),
    Wrong("a message that was read still waits", "lobby_sip_reader",
          [("    ok = counters:sub(Waiting, N, 1),", "    ok = counters:sub(Waiting, N, 0),")],
          ANSWERS + "a_slow_reader_stops_only_its_senders"),
    Wrong("strangers are read over TCP", "lobby_sip",
          [("    case gen_server:call(?MODULE, {lets_in, Source}, infinity) of\n        true ->",
            "    case gen_server:call(?MODULE, {lets_in, Source}, infinity) of\n        _ when is_binary(Message) ->")],
          ANSWERS + "too_fast"),
    Wrong("any tag will do in a request", "lobby_sip_reader",
          [("{Own, _} -> in_call(", "{Tag, _} when Tag =:= Own; Tag =/= <<>> -> in_call(")],
          ANSWERS + "dialogs_are_known_by_both_tags"),
    Wrong("any tag will do in a response", "lobby_sip_reader",
          [("case lobby_sip_message:tag(from, Response) =:= lobby_sip:tag(Key) of",
            "case lobby_sip_message:tag(from, Response) =/= {lobby_sip:tag(Key)} of")],
          ANSWERS + "answers_have_both_tags"),
    Wrong("media go anywhere", "lobby_auth",
          [("    is_in(Offered, Media) orelse is_in(Source, Proxies).",
            "    is_in(Offered, Media) orelse is_in(Source, Proxies) orelse true.")],
          DIALOGS + "a_foreign_address"),
    Wrong("speech before the ACK of a phone", "lobby_call",
          [("                            acknowledged => false},\n", "                            acknowledged => true},\n")],
          DIALOGS + "nothing_is_sent_before_the_ack"),
    Wrong("one address may have all", "lobby_admission",
          [("    TooMany = lists:sum(", "    TooMany = Max < 0 andalso lists:sum(")],
          ANSWERS + "one_address_shuts_out_nobody"),
    Wrong("strangers are read", "lobby_admission",
          [("        stranger -> {false, A}\n", "        stranger -> {true, A}\n")],
          ANSWERS + "a_stranger_is_not_read"),
    Wrong("strangers may connect", "lobby_admission",
          [("        {_, stranger, _} -> {stranger, A};", "        {_, stranger, _} -> {ok, A};")],
          ANSWERS + "strangers_do_not_connect"),
    Wrong("silent connections stay", "lobby_tcp",
          [("element(2, Message) =:= Due; Message =:= timeout ->",
            "element(2, Message) =:= {Due}; Message =:= timeout ->")],
          ANSWERS + "silent_connections_end"),
    Wrong("an operator may be shut out", "lobby_events",
          [("        {false, viewer} -> {error, too_many};", "        {false, _} -> {error, too_many};")],
          HTTP + "watchers_are_limited"),
    Wrong("a body without a length is read", "lobby_http",
          [('"transfer-encoding" -> {true, {"connection", "refused"}};', '"transfer-encoding" -> {true, Header};')],
          HTTP + "bodies_are_limited"),
    Wrong("half a request is waited for", "lobby_http",
          [("erlang:send_after(?BODY, self(), timeout)", "erlang:send_after(1000 * ?BODY, self(), timeout)")],
          HTTP + "half_a_request"),
    Wrong("a path that can't be decoded fails", "lobby_http",
          [("case catch uri_string:percent_decode(unicode:characters_to_binary(Part)) of\n"
            "        Text when is_binary(Text) -> Text;\n        _ -> <<>>",
            "case uri_string:percent_decode(unicode:characters_to_binary(Part)) of\n"
            "        Text when is_binary(Text) -> Text")],
          HTTP + "every_error_is_json"),
    Wrong("a number that is too large fails", "lobby_json",
          [("        error:_ -> invalid(", "        error:none -> invalid(")],
          HTTP + "every_error_is_json"),
    Wrong("failures aren't logged", "lobby_http",
          [("    logger:warning(\"HTTP request", "    logger:debug(\"HTTP request")],
          HTTP + "failures_are_logged"),
    Wrong("a digest counts twice", "lobby_auth",
          [("when is_integer(Count), Count > Last,", "when is_integer(Count), Count >= Last,")],
          ANSWERS + "a_digest_is_used_once"),
    Wrong("extensions aren't looked at", "lobby_sip_message",
          [("             {Required =/= [], {420, [{unsupported, Required}]}},\n", "")],
          ANSWERS + "in_dialogs"),
    Wrong("no 100 for who waits", "lobby_call",
          [("trying_later(Invite) -> {{timeout, trying}, 100, Invite}.", "trying_later(Invite) -> {{timeout, trying}, 20000, Invite}.")],
          DIALOGS + "an_answer_at_once"),
    Wrong("a CANCEL waits for the room", "lobby_call",
          [("        {_, _} when Method =:= <<\"CANCEL\">>; Method =:= <<\"BYE\">> ->",
            "        {_, _} when Method =:= <<\"BYE\">> ->")],
          DIALOGS + "a_cancel_while_he_waits"),
    Wrong("an INVITE is taken while one waits", "lobby_call",
          [("{{new, D}, _, _} when Changing =/= none,", "{{new, D}, _, _} when Changing =:= never,")],
          DIALOGS + "an_invite_while_one_waits"),
    Wrong("whatever is asked for is served", "lobby_sip_message",
          [("case lists:keyfind(true, 1, Tests) of", "case lists:keyfind(never, 1, [{never, none} | Tests]) of\n        {never, none} -> none;")],
          ANSWERS + "messages"),
    Wrong("a merged request is a copy", "lobby_dialog",
          [("    transaction(Request) =:= transaction(Invite).", "    transaction(Request) =/= {transaction(Invite)}.")],
          DIALOGS + "a_merged_request"),
    Wrong("a CANCEL of another branch cancels", "lobby_dialog",
          [("    transaction(Request) =:= transaction(Invite).", "    transaction(Request) =/= {transaction(Invite)}.")],
          DIALOGS + "a_cancel_of_another_branch"),
    Wrong("an old BYE ends a call", "lobby_call",
          [("        {old, _, _} -> answer(500,", "        {old, _, _} when Method =/= <<\"BYE\">> -> answer(500,")],
          DIALOGS + "an_old_bye"),
    Wrong("a refused re-INVITE ends a call", "lobby_dialog",
          [("after_refusal(_) -> goes_on.", "after_refusal(_) -> ended.")],
          DIALOGS + "a_refused_invite_ends_no_call"),
    Wrong("Require: timer for who doesn't know it", "lobby_session_timer",
          [("answer({Seconds, ours}) -> [session_expires(", "answer({Seconds, ours}) -> [{require, [<<\"timer\">>]}, session_expires(")],
          DIALOGS + "timers_for_who_does_not_know_them"),
    Wrong("packets of any length are offered", "lobby_sdp",
          [("{_, _, false} -> {error, bad_packet_time};", "{_, _, none} -> {error, bad_packet_time};"),
           ("{0, 0, 0, 0}, true} -> {ok,", "{0, 0, 0, 0}, _} -> {ok,"), ("{[Format | _], Address, true} ->", "{[Format | _], Address, _} ->")],
          DIALOGS + "a_refusal_has_a_reason"),
    Wrong("a change isn't in the audit log before it is made", "lobby_http",
          [("ok = lobby_audit:write([{event, change} | Entry] ++ [{body, maps:with(?LOGGED, Object)}]),", "")],
          HTTP + "a_change_without_an_answer"),
    Wrong("all of a body is in the audit log", "lobby_http",
          [("[{body, maps:with(?LOGGED, Object)}]", "[{body, Object}]")],
          HTTP + "who_did_what"),
    Wrong("a viewer reads the audit log", "lobby_http",
          [('when Role =:= viewer, Route =:= <<"/audit">> orelse', 'when Role =:= nobody, Route =:= <<"/audit">> orelse')],
          HTTP + "who_did_what"),
    Wrong("only the last room of a call is recorded", "lobby_audit_core",
          [("lists:sublist([Value | Values], ?MAX_SEEN)", "lists:sublist([Value], ?MAX_SEEN)")],
          HTTP + "who_did_what"),
    Wrong("a line is added to half a line", "lobby_audit",
          [('case Size =:= 0 orelse file:write(', 'case Size >= 0 orelse file:write(')],
          AUDIT + "a_kill_in_a_line_test_"),
    Wrong("a node that returns and connects late stays closed", "lobby_store",
          [("true -> ok = met(Peer), loaded();", "true -> loaded();")],
          "lobby_pair_SUITE:a_node_that_returns_connects_late"),
    Wrong("the numbers of lines start again", "lobby_audit",
          [("lists:max([lobby_audit_core:last_number(", "lists:max([0 * lobby_audit_core:last_number(")],
          AUDIT + "a_kill_in_a_line_test_"),
    Wrong("the newest of the older files is removed", "lobby_audit",
          [("lists:reverse(lists:sort(Found))", "lists:sort(Found)")],
          AUDIT + "files_are_renamed_test"),
    Wrong("numbers start again after a file was renamed", "lobby_audit",
          [("(ending(File)) | older(File)]", "(ending(File)) || true]")],
          AUDIT + "a_kill_while_files_are_renamed_test"),
    Wrong("after a full disk nothing is written", "lobby_audit",
          [("closed(Ready#state{lost = true})", "Ready#state{lost = true}")],
          AUDIT + "a_full_disk_test_"),
    Wrong("a name turns text", "lobby_audit_core",
          [("\"[\\\\p{C}", "\"[\\\\p{Cc}")],
          AUDIT + "names_test"),
    Wrong("two members have one name", "lobby_audit_core",
          [("T <- Terminations -- lists:usort(Terminations)]", "T <- Terminations -- Terminations]")],
          AUDIT + "names_test"),
    Wrong("who leaves and joins again by a link isn't isolated any more", "lobby_web",
          [("_ = [lobby_link:keep(Number, Now) || Now =/= Before],", "_ = {Number, Now, Before},")],
          WEB + "who_joins_again_stays_isolated"),
    Wrong("a revoked link lets in", "lobby_link",
          [("_ = [throw(link_revoked) || lobby_store:has(lobby_settings, {revoked, Number})],", "_ = Number,")],
          WEB + "links_end"),
    Wrong("a link that has expired lets in", "lobby_link",
          [("now_s() >= Until]", "now_s() >= Until + 3600]")],
          WEB + "links_end"),
    Wrong("a link isn't signed", "lobby_link",
          [("true = crypto:hash_equals(Signature, signature(Text)),", "_ = Signature,")],
          WEB + "links_end"),
    Wrong("an offer without encryption is relayed", "lobby_web",
          [('Is("^m=[a-z]+ [0-9]+ UDP/TLS/RTP/SAVPF ")', 'Is("^m=[a-z]+ [0-9]+ ")')],
          WEB + "bad_offers"),
    Wrong("rtpengine is told addresses of an offer", "lobby_web",
          [('re:replace(Line, "^c=.*", "c=IN IP4 0.0.0.0")', "Line")],
          WEB + "bad_offers"),
    Wrong("a link skips the door", "lobby_web",
          [("waiting => lobby_room:has_door(Room),", "waiting => false andalso lobby_room:has_door(Room),")],
          WEB + "a_door"),
    Wrong("rtpengine isn't told of another gateway", "lobby_web",
          [("reported({holds, _, Local, _}, Leg) -> moved(Leg#leg{wanted = Local});", "reported({holds, _, _, _}, Leg) -> moved(Leg);")],
          WEB + "a_gateway_is_lost"),
    Wrong("two browsers by one link", "lobby_web",
          [("_ = [relay(ended, Old, #{command => delete}) || {Old, _, _} <- [Leg#leg.current]],\n    gen_server:reply", "gen_server:reply")],
          WEB + "a_link_has_one_member"),
    Wrong("a restart of rtpengine isn't noticed", "lobby_rtpengine",
          [("Before =/= lost, Ran < Before]", "Before =/= lost, Ran < 0]")],
          WEB + "rtpengine_is_lost"),
    Wrong("the isolated learn it", "lobby_web",
          [("[isolated || application:get_env(lobby, show_isolation, false)]", "[isolated]")],
          WEB + "isolation_is_not_shown"),
    Wrong("who joins again in vain is no member any more", "lobby_web",
          [("|| Began =:= none, Error =/=", "|| Began =:= none orelse Leg#leg.current =:= none, Error =/=")],
          WEB + "rtpengine_is_lost"),
    Wrong("a browser is answered without encryption", "lobby_web",
          [('<<"UDP/TLS/RTP/SAVPF">>', '<<"RTP/AVP">>')],
          "lobby_browser_SUITE:a_door"),
]


def command(test):
    module, function = test.split(":")
    if module.endswith("_SUITE"):
        return ["ct", "--suite", f"apps/lobby/test/{module}", "--case", function, "--logdir", "logs"]
    return ["eunit", "--generator" if function.endswith("_") else "--test", test]


def rebar(copy, arguments):
    environment = dict(os.environ, REBAR_BASE_DIR=str(copy / "built"),
                       BRIDGE=os.environ.get("BRIDGE", str(ROOT / "dist" / "mg_bridge")))
    return subprocess.run(["rebar3", *arguments], cwd=copy, env=environment, stdin=subprocess.DEVNULL,
                          stdout=subprocess.PIPE, stderr=subprocess.STDOUT, text=True, errors="replace")


def run(copy, test):
    """Whether the test passes, and what it printed. A test that couldn't begin on a busy machine is run again."""
    for _ in range(3):
        result = rebar(copy, command(test))
        if "Skipped 1" not in result.stdout:
            break
    if not re.search(r"[1-9]\d* tests?\b", result.stdout):
        sys.exit(f"{test} wasn't run:\n{result.stdout}")
    return result.returncode == 0, result.stdout


def passes(copy, test):
    return run(copy, test)[0]


def searched(printed):
    """The numbers that a search prints when it ends with a broken promise."""
    found = re.search(r"(\d+) events: (\d+) states, \d+ steps, (\d+) ms\s+Ended by: broken", printed)
    if not found:
        return ""
    events, states, milliseconds = (int(number) for number in found.groups())
    return f"{events} events, {states:,} states, {milliseconds / 1000:.1f} s"


def compile_all(copy, name):
    result = rebar(copy, ["as", "test", "compile"])
    if result.returncode != 0:
        sys.exit(f"{name} isn't compiled:\n{result.stdout}")


def source(controller, wrong):
    return controller / "apps" / "lobby" / "src" / f"{wrong.module}.erl"


def edited(wrong, body):
    """The module's text with the wrong body and None, or None and why it can't be planted."""
    for old, new in wrong.edits:
        if body.count(old) != 1:
            return None, f"{wrong.name}: this occurs {body.count(old)} times in {wrong.module}: {old}"
        body = body.replace(old, new)
    return body, None


def check():
    """Ends the program if a body can't be planted, or its test doesn't exist."""
    wrongs = []
    for wrong in BODIES:
        wrongs.append(edited(wrong, source(CONTROLLER, wrong).read_text())[1])
        module, function = wrong.test.split(":")
        if not re.search(rf"^{function}\(", (CONTROLLER / "apps" / "lobby" / "test" / f"{module}.erl").read_text(), re.M):
            wrongs.append(f"{wrong.name}: there is no test {wrong.test}")
    if any(wrongs):
        sys.exit("\n".join(filter(None, wrongs)))


def plant(wrong, copy):
    """Whether the test notices the wrong body, and the numbers of a search."""
    path = source(copy, wrong)
    right = path.read_text()
    try:
        # rebar3 compares times in seconds: a file that is as old as the last build isn't compiled.
        time.sleep(1)
        path.write_text(edited(wrong, right)[0])
        compile_all(copy, wrong.name)
        passed, printed = run(copy, wrong.test)
        # A search has the same result each time.
        noticed = not passed and (wrong.test.startswith(SEARCH) or not passes(copy, wrong.test))
        return noticed, searched(printed)
    finally:
        path.write_text(right)


def main():
    check()
    if sys.argv[1:] == ["--check"]:
        return
    bodies = [wrong for wrong in BODIES if not sys.argv[1:] or wrong.name in sys.argv[1:]]
    with tempfile.TemporaryDirectory() as folder:
        copy = pathlib.Path(folder) / "controller"
        shutil.copytree(CONTROLLER, copy, ignore=shutil.ignore_patterns("_build"))
        # A wrong body may leave a variable unused.
        config = copy / "rebar.config"
        config.write_text(config.read_text().replace("warnings_as_errors, ", ""))
        compile_all(copy, "the controller")
        for test in sorted({wrong.test for wrong in bodies}):
            if not any(passes(copy, test) for _ in range(3)):
                sys.exit(f"without a wrong body, {test} fails")
        print("| wrong body | noticed by | |\n|---|---|---|", flush=True)
        missed = 0
        for wrong in bodies:
            noticed, found = plant(wrong, copy)
            missed += not noticed
            print(f"| {wrong.name} | {'`' + wrong.test + '`' if noticed else 'NOBODY: ' + wrong.test} | {found} |", flush=True)
    sys.exit(1 if missed else 0)


if __name__ == "__main__":
    main()
