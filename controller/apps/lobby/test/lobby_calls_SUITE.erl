%% Tests SIP calls with real gateways: with a phone that a test controls step by step, with SIPp, and with baresip.
-module(lobby_calls_SUITE).

-include_lib("common_test/include/ct.hrl").
-include_lib("stdlib/include/assert.hrl").

-compile([export_all]).

suite() -> [{timetrap, {seconds, 60}}].

all() ->
    [a_call, callers_hear_each_other, a_repeated_invite_has_the_same_answer, the_answer_is_repeated_until_the_ack,
     without_an_ack_the_call_ends, hold_and_resume, hold_by_update, streams_are_declined, an_offer_that_comes_late, cancel_and_options,
     session_timers, who_is_silent_is_asked, what_the_gateway_drops_is_logged, requests_that_are_refused, limits, addresses_that_may_call, passwords, a_lost_gateway_is_replaced, who_moves_after_a_loss_is_awaited, who_invites_during_a_loss_is_not_awaited,
     sixty_callers_hear_each_other_again, our_invite_is_repeated_and_acknowledged, both_invite_at_once,
     who_vanished_is_removed, who_refuses_our_invite_is_hung_up, hung_up_and_moved, hung_up_during_a_change, who_is_hung_up_stays_away, addresses_of_ipv6, routes, a_call_that_starts_again_knows_its_place, a_call_that_fails_while_it_joins,
     a_call_that_fails_again_and_again_ends, a_call_that_fails_at_its_start_is_started_again, a_call_outlives_a_slow_supervisor, an_answer_that_comes_after_a_failure, a_call_that_fails_during_a_change, processes_fail, the_node_fails, the_store_ends, garbage,
     over_tcp, connections_are_limited, answers_are_quick, sipp, baresips].

init_per_testcase(Case, Config) ->
    ok = application:load(lobby),
    Gateways = [gateway:start() || _ <- lists:seq(1, gateways(Case))],
    Sip = gateway:free_address(),
    Env = [{gateways, [gateway:config(integer_to_binary(N), G) || {N, G} <- lists:enumerate(Gateways)]}, {sip, Sip}, {http, gateway:free_address()} | env(Case)],
    [ok = application:set_env(lobby, Key, Value) || {Key, Value} <- Env],
    {ok, _} = application:ensure_all_started(lobby),
    lobby_case:until(fun() -> length(lobby_gateway:serving()) =:= length(Gateways) end),
    [{sip, Sip}, {gateways, Gateways} | Config].

gateways(Case) ->
    case lists:member(Case, [a_lost_gateway_is_replaced, who_moves_after_a_loss_is_awaited, who_invites_during_a_loss_is_not_awaited,
                             sixty_callers_hear_each_other_again]) of
        true -> 2;
        false -> 1
    end.

%% In some cases, timers are short: a phone that doesn't answer times out after 64 * t1.
env(addresses_that_may_call) -> [{callers, [{{192, 0, 2, 0}, 24}]}];
env(passwords) -> [{users, #{<<"test">> => <<"secret">>}}];
env(session_timers) -> [{min_se, 2}];
env(Case) when Case =:= who_is_silent_is_asked; Case =:= what_the_gateway_drops_is_logged -> [{silent_after, 1000}, {room_audit, 500}];
env(limits) -> [{max_calls_from, 3}, {max_calls, 4}];
env(garbage) -> [{messages_from, 100000}];
env(Case) when Case =:= without_an_ack_the_call_ends; Case =:= who_vanished_is_removed -> [{t1, 20}];
env(both_invite_at_once) -> [{t1, 100}];
%% After a lost ACK, SIPp takes our retransmitted 200 to its INVITE for the 200 to its BYE. If the BYE is lost, too, the
%% call ends after 64 * t1.
env(sipp) -> [{t1, 100}];
env(_) -> [].

end_per_testcase(_, Config) ->
    ok = lobby_case:stop(),
    Config.

sip(Config) -> proplists:get_value(sip, Config).
gateway(Config) -> hd(proplists:get_value(gateways, Config)).

%% Calls a room, and acknowledges the 200.
call(Config) -> call("100", Config).
call(Room, Config) ->
    Phone = phone:start(sip(Config), Room),
    Calling = phone:invite(phone:sdp(Phone), Phone),
    Response = phone:recv(Calling),
    ?assertEqual(200, phone:status(Response)),
    Talking = phone:learn(Response, Calling),
    phone:ack(Talking),
    {Talking, Response}.

%% Returns the gateway's media address in a session description.
local(Text) ->
    {match, [Port]} = re:run(Text, "m=audio (\\d+) ", [{capture, all_but_first, list}]),
    {{127, 0, 0, 1}, list_to_integer(Port)}.

members(Room) ->
    case people:describe(Room) of
        #{members := Members} -> maps:keys(Members);
        {error, no_such_room} -> []
    end.

%% Returns the modes in a room's context, as the gateway reports them.
modes(Room, Config) ->
    #{context := Context} = people:describe(Room),
    lists:sort(maps:values(gateway:modes(Context, gateway(Config)))).

hang_up(Phone) ->
    Phone1 = phone:request("BYE", "", Phone),
    %% If the phone has answered twice, it gets two ACKs.
    Response = (fun Next() -> case phone:recv(Phone1) of "ACK" ++ _ -> Next(); Text -> Text end end)(),
    ?assertEqual({200, "BYE"}, {phone:status(Response), lists:last(string:lexemes(phone:header("CSeq", Response), " "))}).

%%% Cases.

a_call(Config) ->
    {Phone, Response} = call(Config),
    ?assertEqual(none, phone:header("Record-Route", Response)),
    {_, Port} = sip(Config),
    ?assertEqual("<sip:lobby@127.0.0.1:" ++ integer_to_list(Port) ++ ">", phone:header("Contact", Response)),
    ?assertEqual("application/sdp", phone:header("Content-Type", Response)),
    ?assertNotEqual(nomatch, string:find(Response, "a=sendrecv")),
    ?assertEqual(1, length(members(<<"100">>))),
    hang_up(Phone),
    lobby_case:until(fun() -> members(<<"100">>) =:= [] end),
    %% A BYE is retransmitted if its response was lost. A BYE with another tag belongs to no call.
    hang_up(Phone),
    ?assertEqual(481, begin P = phone:request("BYE", "", phone:learn("\r\nTo: <sip:100@127.0.0.1>;tag=0011223344556677\r\n", Phone)), phone:status(phone:recv(P)) end),
    ?assertEqual(481, begin P1 = phone:request("UPDATE", "", Phone), phone:status(phone:recv(P1)) end).

callers_hear_each_other(Config) ->
    {A, RA} = call(Config),
    {B, RB} = call(Config),
    {C, _} = call("200", Config),
    caller:talk(phone:media(A), local(RA)),
    lobby_case:until(fun() -> caller:heard(phone:media(B)) > 5 end),
    ?assertEqual(0, caller:heard(phone:media(A))),
    caller:talk(phone:media(B), local(RB)),
    lobby_case:until(fun() -> caller:heard(phone:media(A)) > 5 end),
    ?assertEqual(0, caller:heard(phone:media(C))),
    ?assert(caller:received(phone:media(C)) > 0).

a_repeated_invite_has_the_same_answer(Config) ->
    Phone = phone:start(sip(Config)),
    Phone1 = phone:invite(phone:sdp(Phone), Phone),
    First = phone:recv(Phone1),
    %% A retransmitted INVITE has the same number.
    _ = phone:invite(phone:sdp(Phone), Phone),
    ?assertEqual(First, phone:recv(Phone1)),
    ?assertEqual(1, length(members(<<"100">>))).

%% The 200 to an initial INVITE, and the 200 to a re-INVITE, are retransmitted until the ACK arrives.
the_answer_is_repeated_until_the_ack(Config) ->
    _ = lists:foldl(fun(_, Phone) ->
        Phone1 = phone:invite(phone:sdp(Phone), Phone),
        First = phone:recv(Phone1),
        ?assertEqual(First, phone:recv(Phone1)),
        ?assert(phone:quiet(Phone1, 700)),
        Phone2 = phone:learn(First, Phone1),
        phone:ack(Phone2),
        ?assert(phone:quiet(Phone2, 1500)),
        Phone2
    end, phone:start(sip(Config)), [1, 2]),
    ?assertEqual(1, length(members(<<"100">>))).

without_an_ack_the_call_ends(Config) ->
    Phone = phone:start(sip(Config)),
    Phone1 = phone:invite(phone:sdp(Phone), Phone),
    Start = erlang:monotonic_time(millisecond),
    {Bye, Answers} = until_bye(0, Phone1),
    ?assert(erlang:monotonic_time(millisecond) - Start >= 1280),
    %% The 200 is retransmitted after 20, 60, 140 and 300 ms, and then every 160 ms, or less often on a busy machine.
    ?assert(Answers >= 5 andalso Answers =< 11),
    lobby_case:until(fun() -> members(<<"100">>) =:= [] end),
    phone:answer(200, Bye, Phone1),
    ?assert(phone:quiet(Phone1, 500)).

%% Returns our BYE, and the number of 200s before it.
until_bye(Answers, Phone) ->
    Text = phone:recv(Phone),
    case phone:status(Text) of "BYE" -> {Text, Answers}; 200 -> until_bye(Answers + 1, Phone) end.

hold_and_resume(Config) ->
    {Phone, First} = call(Config),
    lobby_case:until(fun() -> modes(<<"100">>, Config) =:= ['SendReceive'] end),
    {Held, R1} = reinvite("sendonly", Phone),
    ?assertNotEqual(nomatch, string:find(R1, "a=recvonly")),
    ?assertEqual(['Inactive'], modes(<<"100">>, Config)),
    {Listening, R2} = reinvite("recvonly", Held),
    ?assertNotEqual(nomatch, string:find(R2, "a=sendonly")),
    ?assertEqual(['SendOnly'], modes(<<"100">>, Config)),
    {_, R3} = reinvite("sendrecv", Listening),
    ?assertEqual(['SendReceive'], modes(<<"100">>, Config)),
    ?assertEqual([local(First)], lists:usort([local(R) || R <- [R1, R2, R3]])),
    %% The version of each new description is one higher (RFC 3264, section 8).
    ?assertEqual([1, 2, 3, 4], [version(R) || R <- [First, R1, R2, R3]]).

version(Text) ->
    {match, [Version]} = re:run(Text, "o=- \\d+ (\\d+) ", [{capture, all_but_first, list}]),
    list_to_integer(Version).

reinvite(Direction, Phone) ->
    Phone1 = phone:invite(phone:sdp(Phone, Direction), Phone),
    Response = phone:recv(Phone1),
    ?assertEqual(200, phone:status(Response)),
    phone:ack(Phone1),
    {Phone1, Response}.

hold_by_update(Config) ->
    {Phone, _} = call(Config),
    Phone1 = phone:request("UPDATE", phone:sdp(Phone, "inactive"), Phone),
    Response = phone:recv(Phone1),
    ?assertEqual({200, "2 UPDATE"}, {phone:status(Response), phone:header("CSeq", Response)}),
    ?assertEqual(['Inactive'], modes(<<"100">>, Config)),
    ?assert(phone:quiet(Phone1, 700)).

streams_are_declined(Config) ->
    Phone = phone:start(sip(Config)),
    Phone1 = phone:invite(phone:sdp(Phone) ++ "m=video 5000 RTP/AVP 96\r\n", Phone),
    Response = phone:recv(Phone1),
    ?assertNotEqual(nomatch, string:find(Response, "m=video 0 RTP/AVP 96\r\n")).

an_offer_that_comes_late(Config) ->
    Phone = phone:start(sip(Config)),
    Phone1 = phone:invite("", Phone),
    Response = phone:recv(Phone1),
    ?assertEqual(200, phone:status(Response)),
    ?assertEqual(['Inactive'], modes(<<"100">>, Config)),
    {B, RB} = call(Config),
    caller:talk(phone:media(B), local(RB)),
    phone:ack(phone:sdp(Phone), phone:learn(Response, Phone1)),
    lobby_case:until(fun() -> modes(<<"100">>, Config) =:= ['SendReceive', 'SendReceive'] end),
    lobby_case:until(fun() -> caller:heard(phone:media(Phone)) > 5 end),
    caller:talk(phone:media(Phone), local(Response)),
    lobby_case:until(fun() -> caller:heard(phone:media(B)) > 5 end).

cancel_and_options(Config) ->
    {Phone, _} = call(Config),
    %% The INVITE has been answered, so CANCEL does nothing.
    _ = phone:request("CANCEL", "", Phone),
    ?assertEqual(200, phone:status(phone:recv(Phone))),
    ?assertEqual(1, length(members(<<"100">>))),
    Phone1 = phone:request("OPTIONS", "", Phone),
    Response = phone:recv(Phone1),
    ?assertEqual({200, "INVITE, ACK, BYE, CANCEL, OPTIONS, UPDATE"}, {phone:status(Response), phone:header("Allow", Response)}),
    ?assertEqual(405, begin P2 = phone:request("INFO", "", Phone1), phone:status(phone:recv(P2)) end),
    Stranger = phone:start(sip(Config)),
    _ = phone:request("OPTIONS", "", Stranger),
    ?assertEqual(200, phone:status(phone:recv(Stranger))).

requests_that_are_refused(Config) ->
    Status = fun(Method, Room, Body, Extra) ->
        Phone = phone:start(sip(Config), Room),
        _ = phone:request(Method, Body, Extra, Phone),
        phone:status(phone:recv(Phone))
    end,
    Sdp = phone:sdp(phone:start(sip(Config))),
    ?assertEqual(404, Status("INVITE", "a%20b", Sdp, [])),
    ?assertEqual(404, Status("INVITE", lists:duplicate(33, $1), Sdp, [])),
    ?assertEqual(420, Status("INVITE", "100", Sdp, ["Require: 100rel"])),
    ?assertEqual(488, Status("INVITE", "100", "v=0\r\nc=IN IP4 127.0.0.1\r\nm=audio 4000 RTP/AVP 18\r\n", [])),
    ?assertEqual(488, Status("INVITE", "100", "garbage", [])),
    ?assertEqual(405, Status("REGISTER", "100", "", [])),
    [?assertEqual(481, Status(Method, "100", "", [])) || Method <- ["BYE", "CANCEL", "UPDATE"]],
    Phone = phone:start(sip(Config)),
    phone:send("INVITE sip:100@127.0.0.1 SIP/2.0\r\nVia: SIP/2.0/UDP 127.0.0.1:9;branch=z9hG4bK-1;rport\r\nCall-ID: 1\r\n\r\n", Phone),
    ?assertEqual(400, phone:status(phone:recv(Phone))),
    phone:send("ACK sip:100@127.0.0.1 SIP/2.0\r\nVia: SIP/2.0/UDP 127.0.0.1:9;branch=z9hG4bK-1;rport\r\nCall-ID: 1\r\n\r\n", Phone),
    ?assert(phone:quiet(Phone, 300)),
    ?assertEqual([], lobby_room:names()),
    %% In a call, unsupported media and outdated requests are rejected, and the call continues.
    {P1, _} = call(Config),
    P2 = phone:invite("v=0\r\nc=IN IP4 127.0.0.1\r\nm=audio 4000 RTP/AVP 18\r\n", P1),
    ?assertEqual(488, phone:status(phone:recv(P2))),
    _ = phone:request("UPDATE", phone:sdp(P1, "inactive"), phone:number(0, P2)),
    ?assertEqual(500, phone:status(phone:recv(P2))),
    lobby_case:until(fun() -> modes(<<"100">>, Config) =:= ['SendReceive'] end),
    hang_up(P2).

limits(Config) ->
    Calls = [call(Config) || _ <- lists:seq(1, 3)],
    Phone = phone:start(sip(Config)),
    _ = phone:invite(phone:sdp(Phone), Phone),
    ?assertEqual(486, phone:status(phone:recv(Phone))),
    hang_up(element(1, hd(Calls))),
    lobby_case:until(fun() -> proplists:get_value(active, supervisor:count_children(lobby_call_sup)) =:= 2 end),
    _ = call(Config).

session_timers(Config) ->
    Call = fun(Expires, Require) ->
        Phone = phone:start(sip(Config)),
        Phone1 = phone:invite(phone:sdp(Phone), ["Supported: timer", "Session-Expires: " ++ Expires | Require], Phone),
        Response = phone:recv(Phone1),
        {case phone:status(Response) of 200 -> P = phone:learn(Response, Phone1), phone:ack(P), P; _ -> Phone1 end, Response}
    end,
    {_, Short} = Call("1", []),
    ?assertEqual({422, "2"}, {phone:status(Short), phone:header("Min-SE", Short)}),
    %% The caller has to refresh the session, and does so only once.
    {A, RA} = Call("3;refresher=uac", ["Require: timer"]),
    ?assertEqual({"3;refresher=uac", "timer"}, {phone:header("Session-Expires", RA), phone:header("Require", RA)}),
    timer:sleep(1500),
    A1 = phone:request("UPDATE", "", ["Supported: timer", "Session-Expires: 3;refresher=uac"], A),
    Refreshed = phone:recv(A1),
    ?assertEqual({200, "3;refresher=uac", "0"}, {phone:status(Refreshed), phone:header("Session-Expires", Refreshed), phone:header("Content-Length", Refreshed)}),
    ?assert(phone:quiet(A1, 1700)),
    ?assertEqual("BYE", phone:status(phone:recv(A1, 600))),
    %% The controller has to refresh the session, after half of its time.
    {B, RB} = Call("3;refresher=uas", []),
    ?assertEqual({"3;refresher=uas", none}, {phone:header("Session-Expires", RB), phone:header("Require", RB)}),
    [begin
         ?assert(phone:quiet(B, 1300)),
         Invite = phone:recv(B, 500),
         ?assertEqual({"INVITE", "3;refresher=uac"}, {phone:status(Invite), phone:header("Session-Expires", Invite)}),
         phone:answer(200, Invite, phone:sdp(B), B),
         ?assertEqual("ACK", phone:status(phone:recv(B)))
     end || _ <- [1, 2]].

%% A phone that sends packets gets no re-INVITE. A phone that sends none is re-invited repeatedly, so that the
%% controller notices if the phone has vanished.
who_is_silent_is_asked(Config) ->
    {Loud, R} = call(Config),
    caller:talk(phone:media(Loud), local(R)),
    {Silent, _} = call(Config),
    Invite = phone:recv(Silent, 2500),
    ?assertEqual("INVITE", phone:status(Invite)),
    phone:answer(200, Invite, phone:sdp(Silent), Silent),
    ?assertEqual("ACK", phone:status(phone:recv(Silent))),
    ?assertEqual("INVITE", phone:status(phone:recv(Silent, 2500))),
    ?assert(phone:quiet(Loud, 100)).

%% The gateway drops packets of 10 ms. The caller is re-invited each time, but this is logged only once.
what_the_gateway_drops_is_logged(Config) ->
    File = filename:join(proplists:get_value(priv_dir, Config), "log"),
    ok = logger:add_handler(file, logger_std_h, #{config => #{file => File}}),
    {Loud, R} = call(Config),
    caller:talk(phone:media(Loud), local(R)),
    {Odd, Response} = call(Config),
    {Address, Port} = local(Response),
    {ok, Socket} = gen_udp:open(0, [{ip, {127, 0, 0, 1}}]),
    Talk = fun Talk(N) ->
        ok = gen_udp:send(Socket, Address, Port, <<2:2, 0:14, N:16, (80 * N):32, 7:32, 0:640>>),
        timer:sleep(10),
        Talk(N + 1)
    end,
    Talking = spawn_link(fun() -> receive go -> Talk(0) end end),
    ok = gen_udp:controlling_process(Socket, Talking),
    Talking ! go,
    [begin
         Invite = phone:recv(Odd, 2500),
         ?assertEqual("INVITE", phone:status(Invite)),
         phone:answer(200, Invite, phone:sdp(Odd), Odd),
         ?assertEqual("ACK", phone:status(phone:recv(Odd)))
     end || _ <- [1, 2]],
    ok = logger_std_h:filesync(file),
    ok = logger:remove_handler(file),
    {ok, Log} = file:read_file(File),
    ?assertMatch({match, [_]}, re:run(Log, "the gateway accepts no packets from [0-9a-f]{8} .*, or none with 20 ms of PCMU", [global])).

addresses_that_may_call(Config) ->
    Phone = phone:start(sip(Config)),
    _ = phone:invite(phone:sdp(Phone), Phone),
    ?assert(phone:quiet(Phone, 500)).

passwords(Config) ->
    {_, Port} = sip(Config),
    Phone = phone:start(sip(Config)),
    Phone1 = phone:invite(phone:sdp(Phone), Phone),
    Response = phone:recv(Phone1),
    ?assertEqual(401, phone:status(Response)),
    {match, [Nonce]} = re:run(phone:header("WWW-Authenticate", Response), "nonce=\"([^\"]*)\"", [{capture, all_but_first, list}]),
    Md5 = fun(Text) -> string:lowercase(binary:encode_hex(crypto:hash(md5, Text))) end,
    Uri = "sip:100@127.0.0.1:" ++ integer_to_list(Port),
    Digest = fun(Password) ->
        Answer = Md5([Md5(["test:lobby:", Password]), ":", Nonce, ":00000001:c:auth:", Md5(["INVITE:", Uri])]),
        lists:flatten(io_lib:format("Authorization: Digest username=\"test\", realm=\"lobby\", nonce=\"~s\", uri=\"~s\", response=\"~s\", "
                                    "qop=auth, nc=00000001, cnonce=\"c\"", [Nonce, Uri, Answer]))
    end,
    Phone2 = phone:invite(phone:sdp(Phone1), [Digest("wrong")], Phone1),
    ?assertEqual(401, phone:status(phone:recv(Phone2))),
    Phone3 = phone:invite(phone:sdp(Phone2), [Digest("secret")], Phone2),
    ?assertEqual(200, phone:status(phone:recv(Phone3))),
    ?assertEqual(1, length(members(<<"100">>))).

a_lost_gateway_is_replaced(Config) ->
    Phones = [element(1, call(Config)) || _ <- lists:seq(1, 5)],
    Start = erlang:monotonic_time(millisecond),
    lose_gateway(Config),
    Locals = [begin
        Invite = phone:recv(Phone),
        ?assertEqual("INVITE", phone:status(Invite)),
        %% Tags keep their upper and lower case.
        ?assertNotEqual(nomatch, string:find(phone:header("To", Invite), ";tag=TaG")),
        phone:answer(200, Invite, phone:sdp(Phone), Phone),
        ?assertEqual("ACK", phone:status(phone:recv(Phone))),
        local(Invite)
    end || Phone <- Phones],
    ct:pal("all invited anew ~b ms after the kill", [erlang:monotonic_time(millisecond) - Start]),
    ?assertEqual(5, length(lists:usort(Locals))),
    caller:talk(phone:media(hd(Phones)), hd(Locals)),
    [lobby_case:until(fun() -> caller:heard(phone:media(Phone)) > 5 end) || Phone <- tl(Phones)].

lose_gateway(Config) ->
    [A, B] = proplists:get_value(gateways, Config),
    #{gateway := Name} = people:describe(<<"100">>),
    gateway:kill(case Name of <<"1">> -> A; <<"2">> -> B end).

%% The lost gateway may just be unreachable, and may still mix the caller's speech.
who_moves_after_a_loss_is_awaited(Config) ->
    {Mover, _} = call(Config),
    [Id] = members(<<"100">>),
    {Other, _} = call(Config),
    lose_gateway(Config),
    [Invite, OthersInvite] = [phone:recv(Phone) || Phone <- [Mover, Other]],
    phone:answer(200, OthersInvite, phone:sdp(Other), Other),
    Self = self(),
    spawn(fun() -> Self ! {moved, lobby_member:move(Id, <<"200">>)} end),
    receive {moved, _} -> error(answered) after 500 -> ok end,
    ?assertEqual([Id], members(<<"200">>)),
    phone:answer(200, Invite, phone:sdp(Mover), Mover),
    receive {moved, Result} -> ?assertEqual(ok, Result) after 15000 -> error(not_answered) end.

%% The phone learns the new address from the response to its own re-INVITE.
who_invites_during_a_loss_is_not_awaited(Config) ->
    {Phone, _} = call(Config),
    [Id] = members(<<"100">>),
    lose_gateway(Config),
    Inviting = phone:invite(phone:sdp(Phone, "recvonly"), Phone),
    Response = next([100], Inviting),
    ?assertEqual(200, phone:status(Response)),
    phone:ack(phone:learn(Response, Inviting)),
    Self = self(),
    spawn(fun() -> Self ! {isolated, lobby_member:change(Id, #{isolated => true})} end),
    receive {isolated, Result} -> ?assertEqual(ok, Result) after 15000 -> error(not_answered) end.

%% Sixty callers talk continuously in one room. One of them is isolated, and their gateway is killed three times.
sixty_callers_hear_each_other_again(Config) ->
    ok = people:create(<<"100">>, [{deny, {role, <<"alone">>}, everyone}, {deny, everyone, {role, <<"alone">>}}]),
    [Alone | Others] = [phone:automatic(sip(Config), "100") || _ <- lists:seq(1, 60)],
    {_, AlonePort} = Alone,
    [Id] = [I || {_, #{call := Call}} <- lobby_store:all(lobby_calls), I <- [element(2, Call)], string:find(io_lib:format("~p", [Call]),
                 "{127,0,0,1}," ++ integer_to_list(AlonePort) ++ "}") =/= nomatch],
    ok = lobby_member:change(Id, #{role => <<"alone">>}),
    timer:sleep(300),
    Gateways = maps:from_list(lists:zip([<<"1">>, <<"2">>], proplists:get_value(gateways, Config))),
    _ = lists:foldl(fun(_, Gs) ->
        #{gateway := Name} = people:describe(<<"100">>),
        caller:reset(Alone),
        gateway:kill(maps:get(Name, Gs)),
        %% Packets may still be in flight or in buffers.
        timer:sleep(50),
        Killed = erlang:monotonic_time(millisecond) - 50,
        [caller:reset(Caller) || Caller <- Others],
        lobby_case:until(fun() -> lists:all(fun(Caller) -> caller:heard(Caller) > 0 end, Others) end),
        Times = lists:sort([caller:first_heard(Caller) - Killed || Caller <- Others]),
        ct:pal("heard again after ~b to ~b ms", [hd(Times), lists:last(Times)]),
        timer:sleep(500),
        ?assertEqual(0, caller:heard(Alone)),
        ?assert(caller:received(Alone) > 0),
        lobby_case:until(fun() -> length(lobby_gateway:serving()) =:= 1 end),
        Gs1 = Gs#{Name := gateway:restart(maps:get(Name, Gs), [])},
        lobby_case:until(fun() -> length(lobby_gateway:serving()) =:= 2 end),
        Gs1
    end, Gateways, [1, 2, 3]).

%% Returns a re-INVITE. The gateway restarts from scratch with other ports, because callers get no re-INVITE if the
%% gateway's address stays the same.
our_invite(Config) ->
    {Phone, _} = call(Config),
    _ = gateway:restart_elsewhere(gateway(Config), ["--first-context", "1000", "--first-termination", "1000"]),
    Invite = phone:recv(Phone, 4000),
    ?assertEqual("INVITE", phone:status(Invite)),
    {Phone, Invite}.

our_invite_is_repeated_and_acknowledged(Config) ->
    {Phone, Invite} = our_invite(Config),
    ?assertEqual(Invite, phone:recv(Phone)),
    %% After a provisional response, the re-INVITE isn't retransmitted.
    phone:answer(180, Invite, Phone),
    phone:flush(Phone),
    ?assert(phone:quiet(Phone, 1500)),
    phone:answer(200, Invite, phone:sdp(Phone), Phone),
    Ack = phone:recv(Phone),
    ?assertEqual({"ACK", "1 ACK"}, {phone:status(Ack), phone:header("CSeq", Ack)}),
    %% The phone sends its 200 again, as if the ACK had been lost.
    phone:answer(200, Invite, phone:sdp(Phone), Phone),
    ?assertEqual("ACK", phone:status(phone:recv(Phone))),
    hang_up(Phone).

both_invite_at_once(Config) ->
    {Phone, Invite} = our_invite(Config),
    Phone1 = phone:invite(phone:sdp(Phone), Phone),
    ?assertEqual(491, phone:status(next(["INVITE"], Phone1))),
    phone:answer(491, Invite, Phone1),
    Ack = next(["INVITE"], Phone1),
    ?assertEqual("ACK", phone:status(Ack)),
    %% The ACK to a failure belongs to the INVITE's transaction.
    ?assertEqual(phone:header("Via", Invite), phone:header("Via", Ack)),
    Again = phone:recv(Phone1, 3000),
    ?assertEqual({"INVITE", "2 INVITE"}, {phone:status(Again), phone:header("CSeq", Again)}),
    phone:answer(200, Again, phone:sdp(Phone1), Phone1),
    ?assertEqual("ACK", phone:status(next(["INVITE"], Phone1))).

%% Returns the next message, skipping messages with these statuses.
next(Repeated, Phone) ->
    Text = phone:recv(Phone),
    case lists:member(phone:status(Text), Repeated) of
        true -> next(Repeated, Phone);
        false -> Text
    end.

who_vanished_is_removed(Config) ->
    {Phone, _} = our_invite(Config),
    phone:close(Phone),
    lobby_case:until(fun() -> members(<<"100">>) =:= [] end),
    lobby_case:until(fun() -> proplists:get_value(active, supervisor:count_children(lobby_call_sup)) =:= 0 end).

who_refuses_our_invite_is_hung_up(Config) ->
    {Phone, Invite} = our_invite(Config),
    phone:answer(405, Invite, Phone),
    ?assertEqual("ACK", phone:status(next(["INVITE"], Phone))),
    ?assertEqual("BYE", phone:status(phone:recv(Phone))),
    lobby_case:until(fun() -> members(<<"100">>) =:= [] end).

hung_up_and_moved(Config) ->
    {Phone, First} = call(Config),
    {_, _} = call("200", Config),
    [Id] = members(<<"100">>),
    ?assertEqual({error, same_room}, lobby_member:move(Id, <<"100">>)),
    ?assertEqual(ok, lobby_member:move(Id, <<"200">>)),
    ?assertEqual(2, length(members(<<"200">>))),
    ?assert(phone:quiet(Phone, 300)),
    {Held, Response} = reinvite("sendonly", Phone),
    ?assertEqual(local(First), local(Response)),
    ?assertEqual(['Inactive', 'SendReceive'], modes(<<"200">>, Config)),
    ?assertEqual(ok, lobby_member:hang_up(Id)),
    Bye = phone:recv(Held),
    ?assertEqual("BYE", phone:status(Bye)),
    phone:answer(200, Bye, Held),
    lobby_case:until(fun() -> length(members(<<"200">>)) =:= 1 end),
    lobby_case:until(fun() -> lobby_member:hang_up(Id) =:= {error, no_member} end).

%% The room hangs, so neither the change nor the end of the call has reached the gateway yet.
hung_up_during_a_change(Config) ->
    {Phone, _} = call(Config),
    [Id] = members(<<"100">>),
    Room = lobby_registry:whereis_name({room, <<"100">>}),
    ok = sys:suspend(Room),
    Phone1 = phone:invite(phone:sdp(Phone, "sendonly"), Phone),
    lobby_case:until(fun() -> {ok, #{direction := Direction}} = lobby_member:find(Id), Direction =:= sendonly end),
    ?assertEqual(ok, lobby_member:hang_up(Id)),
    ?assertEqual("BYE", phone:status(next([100, 200], Phone1))),
    ok = sys:resume(Room).

%% The phone doesn't answer the BYE, and the member doesn't return to the room.
who_is_hung_up_stays_away(Config) ->
    {_, _} = call(Config),
    [Id] = members(<<"100">>),
    Room = lobby_registry:whereis_name({room, <<"100">>}),
    ok = sys:suspend(Room),
    _ = spawn(fun() -> lobby_member:change(Id, #{muted => true}) end),
    lobby_case:until(fun() -> {ok, #{muted := Muted}} = lobby_member:find(Id), Muted end),
    ?assertEqual(ok, lobby_member:hang_up(Id)),
    timer:sleep(1500),
    ok = sys:resume(Room),
    timer:sleep(300),
    ?assertEqual([], members(<<"100">>)).

addresses_of_ipv6(Config) ->
    Phone = phone:start(sip(Config)),
    {_, Port} = sip(Config),
    Body = phone:sdp(Phone),
    phone:send(io_lib:format("INVITE sip:100@127.0.0.1:~b SIP/2.0\r\nVia: SIP/2.0/UDP [fd00::2]:5070;branch=z9hG4bK-1;rport\r\n"
                             "From: <sip:linphone@[fd00::2]>;tag=1\r\nTo: <sip:100@127.0.0.1>\r\nCall-ID: 1\r\nCSeq: 1 INVITE\r\n"
                             "Contact: <sip:linphone@[fd00::2]:5070>\r\nContent-Length: ~b\r\n\r\n~s", [Port, length(Body), Body]), Phone),
    Response = phone:recv(Phone),
    ?assertEqual(200, phone:status(Response)),
    ?assertEqual("<sip:linphone@[fd00::2]>;tag=1", phone:header("From", Response)),
    [Id] = members(<<"100">>),
    ok = lobby_member:hang_up(Id),
    Bye = next([200], Phone),
    ?assertMatch("BYE sip:linphone@[fd00::2]:5070 SIP/2.0" ++ _, Bye).

routes(Config) ->
    Phone = phone:start(sip(Config)),
    Proxy = phone:start(sip(Config)),
    Route = "<sip:127.0.0.1:" ++ integer_to_list(phone:port(Proxy)) ++ ";lr>",
    Phone1 = phone:invite(phone:sdp(Phone), ["Record-Route: " ++ Route], Phone),
    Response = phone:recv(Phone1),
    ?assertEqual(Route, phone:header("Record-Route", Response)),
    phone:ack(phone:learn(Response, Phone1)),
    timer:sleep(50),
    [Id] = members(<<"100">>),
    ok = lobby_member:hang_up(Id),
    Bye = phone:recv(Proxy),
    ?assertEqual({"BYE", Route}, {phone:status(Bye), phone:header("Route", Bye)}).

%% The controller's node is killed, and another node starts with its folder. The new node re-invites the phones, and
%% cleans the gateway.
the_node_fails(Config) ->
    Folder = string:trim(os:cmd("mktemp -d")),
    ok = application:stop(lobby),
    Gateway = gateway:start(),
    Start = fun() ->
        {ok, Peer, _} = peer:start_link(#{connection => standard_io, args => ["-mnesia", "dir", "\"" ++ Folder ++ "\"", "-pa" | code:get_path()]}),
        _ = peer:call(Peer, application, load, [lobby]),
        [ok = peer:call(Peer, application, set_env, [lobby, Key, Value])
         || {Key, Value} <- [{gateways, [gateway:config(<<"1">>, Gateway)]}, {sip, sip(Config)}, {http, gateway:free_address()}, {store, disc}]],
        {ok, _} = peer:call(Peer, application, ensure_all_started, [lobby], 30000),
        lobby_case:until(fun() -> length(peer:call(Peer, lobby_gateway, serving, [])) =:= 1 end),
        Peer
    end,
    First = Start(),
    ok = peer:call(First, people, create, [<<"100">>, lobby_rules:preset(lecture)]),
    {Phone, RP} = call(Config),
    {Other, RO} = call(Config),
    Context = maps:get(context, peer:call(First, people, describe, [<<"100">>])),
    %% Mnesia writes to the disk with a delay.
    timer:sleep(4000),
    Pid = peer:call(First, os, getpid, []),
    unlink(First),
    _ = os:cmd("kill -9 " ++ Pid),
    Second = Start(),
    [begin
         Invite = phone:recv(P, 3000),
         ?assertEqual({"INVITE", local(R)}, {phone:status(Invite), local(Invite)}),
         phone:answer(200, Invite, phone:sdp(P), P),
         ?assertEqual("ACK", phone:status(phone:recv(P)))
     end || {P, R} <- [{Phone, RP}, {Other, RO}]],
    %% The conference continues.
    #{members := Members, rules := Rules, context := Now} = peer:call(Second, people, describe, [<<"100">>]),
    ?assertEqual({2, lobby_rules:preset(lecture), Context}, {map_size(Members), Rules, Now}),
    %% These are the controller's own context, and the room's.
    ?assertEqual(2, length(gateway:contexts(lists:seq(1, 60), Gateway))),
    hang_up(Phone),
    lobby_case:until(fun() -> map_size(maps:get(members, peer:call(Second, people, describe, [<<"100">>]))) =:= 1 end),
    peer:stop(Second),
    ok = file:del_dir_r(Folder).

%% Mnesia ends when it can't write. Without the store, the controller could do nothing, so its node ends, too.
the_store_ends(_) ->
    File = string:trim(os:cmd("mktemp")),
    Gateway = #{name => <<"1">>, address => gateway:free_address()},
    Env = [{gateways, [Gateway]}, {sip, gateway:free_address()}, {http, gateway:free_address()}],
    ok = file:write_file(File, io_lib:format("~p.~n", [[{lobby, Env}]])),
    {ok, Peer, _} = peer:start(#{connection => standard_io, args => ["-pa" | code:get_path()]}),
    ok = peer:call(Peer, lobby_app, run, [[File]], 30000),
    Monitor = monitor(process, Peer),
    %% The node may end before an answer.
    ok = peer:cast(Peer, mnesia, stop, []),
    receive {'DOWN', Monitor, process, Peer, _} -> ok after 20000 -> error(has_not_ended) end,
    ok = file:delete(File).

%% The conference is recreated while a call's process restarts. The call continues, and the phone gets the new address
%% in a re-INVITE.
a_call_that_starts_again_knows_its_place(Config) ->
    {Phone, Response} = call(Config),
    [Pid] = [P || {_, P, _, _} <- supervisor:which_children(lobby_call_sup)],
    ok = sys:suspend(lobby_call_sup),
    exit(Pid, kill),
    _ = gateway:restart_elsewhere(gateway(Config), ["--first-context", "1000", "--first-termination", "1000"]),
    [Id] = members(<<"100">>),
    lobby_case:until(fun() -> case people:describe(<<"100">>) of
        #{members := #{Id := #{termination := T}}} -> T >= 1000;
        _ -> false
    end end),
    ok = sys:resume(lobby_call_sup),
    Invite = phone:recv(Phone, 4000),
    ?assertEqual("INVITE", phone:status(Invite)),
    ?assertNotEqual(local(Response), local(Invite)),
    [{Now, _}] = [Local || {_, _, {version, _, #{local := Local, member := Of}}, _} <- ets:tab2list(lobby_terminations), Of =:= Id],
    ?assertEqual(Now, local(Invite)),
    phone:answer(200, Invite, phone:sdp(Phone), Phone).

%% The caller sends only one INVITE, joins once, and gets a 200.
a_call_that_fails_while_it_joins(Config) ->
    {_, _} = call(Config),
    Room = lobby_registry:whereis_name({room, <<"100">>}),
    ok = sys:suspend(Room),
    Phone = phone:start(sip(Config)),
    Phone1 = phone:invite(phone:sdp(Phone), Phone),
    Joins = fun(N) -> lobby_case:until(fun() -> process_info(Room, message_queue_len) >= {message_queue_len, N} end) end,
    Starting = fun() -> [P || {_, P, _, _} <- supervisor:which_children(lobby_call_sup), element(1, sys:get_state(P)) =:= starting] end,
    lobby_case:until(fun() -> Starting() =/= [] end),
    Joins(1),
    [Pid] = Starting(),
    exit(Pid, kill),
    Joins(2),
    ok = sys:resume(Room),
    Response = phone:recv(Phone1),
    ?assertEqual(200, phone:status(Response)),
    ?assertEqual(2, length(members(<<"100">>))),
    Phone2 = phone:learn(Response, Phone1),
    phone:ack(Phone2),
    hang_up(Phone2),
    lobby_case:until(fun() -> length(members(<<"100">>)) =:= 1 end).

%% The phone gets a BYE, and the call leaves nothing behind.
a_call_that_fails_again_and_again_ends(Config) ->
    {Phone, _} = call(Config),
    [{Key, _}] = lobby_store:all(lobby_calls),
    lists:foldl(fun(_, Before) ->
        lobby_case:until(fun() -> lists:member(lobby_registry:whereis_name({call, Key}), [undefined, Before]) =:= false end),
        Pid = lobby_registry:whereis_name({call, Key}),
        exit(Pid, fails),
        Pid
    end, none, [1, 2, 3]),
    ?assertEqual("BYE", phone:status(next(["INVITE"], Phone))),
    lobby_case:until(fun() -> lobby_store:all(lobby_calls) =:= [] andalso members(<<"100">>) =:= [] end),
    lobby_case:until(fun() -> length(gateway:contexts(lists:seq(1, 60), gateway(Config))) =:= 1 end).

%% The keeper gets the same report as if the call's process had been killed after it was registered, while its
%% supervisor still waited for it.
a_call_that_fails_at_its_start_is_started_again(Config) ->
    {Phone, _} = call(Config),
    [{Key, _}] = lobby_store:all(lobby_calls),
    Before = lobby_registry:whereis_name({call, Key}),
    %% An ACK that arrives later would start the call.
    lobby_case:until(fun() ->
        #{members := Members} = people:describe(<<"100">>),
        [true] =:= [Is || #{acknowledged := Is} <- maps:values(Members)]
    end),
    ok = supervisor:terminate_child(lobby_call_sup, Before),
    ?assertExit({failed, Key, fails}, lobby_keeper:started(call, Key, {error, fails})),
    lobby_case:until(fun() -> is_pid(lobby_registry:whereis_name({call, Key})) end),
    ?assertEqual("INVITE", phone:status(phone:recv(Phone, 5000))),
    ?assertEqual(1, length(members(<<"100">>))),
    %% A call that isn't stored isn't started.
    ?assertExit({failed, unknown, fails}, lobby_keeper:started(call, unknown, {error, fails})),
    ?assertEqual([Key], [Known || {Known, _} <- lobby_registry:names(call)]).

%% Until the rooms' supervisor has restarted, a call fails at each start. These failures don't end the call.
a_call_outlives_a_slow_supervisor(Config) ->
    {Phone, _} = call(Config),
    [{Key, _}] = lobby_store:all(lobby_calls),
    Before = lobby_registry:whereis_name({call, Key}),
    ok = sys:suspend(lobby_serving),
    exit(whereis(lobby_room_sup), kill),
    _ = phone:request("UPDATE", phone:sdp(Phone), Phone),
    lobby_case:until(fun() -> lobby_registry:whereis_name({call, Key}) =/= Before end),
    timer:sleep(200),
    ok = sys:resume(lobby_serving),
    lobby_case:until(fun() -> is_pid(whereis(lobby_room_sup)) andalso is_pid(whereis(lobby_connections)) end),
    ?assertMatch([{Key, _}], lobby_store:all(lobby_calls)),
    lobby_case:until(fun() -> is_pid(lobby_registry:whereis_name({call, Key})) end),
    lobby_case:until(fun() -> length(members(<<"100">>)) =:= 1 end).

%% The controller acknowledges the late 200. Otherwise, the phone would hang up.
an_answer_that_comes_after_a_failure(Config) ->
    {Phone, Invite} = our_invite(Config),
    [Pid] = [P || {_, P, _, _} <- supervisor:which_children(lobby_call_sup)],
    exit(Pid, kill),
    Again = next_number("2 INVITE", Phone),
    phone:answer(200, Invite, phone:sdp(Phone), Phone),
    ?assertEqual("1 ACK", phone:header("CSeq", next(["INVITE"], Phone))),
    phone:answer(200, Again, phone:sdp(Phone), Phone),
    ?assertEqual("2 ACK", phone:header("CSeq", next(["INVITE"], Phone))),
    hang_up(Phone).

%% Both the interrupted change and the next change are answered.
a_call_that_fails_during_a_change(Config) ->
    {Phone, _} = call(Config),
    [Id] = members(<<"100">>),
    Room = lobby_registry:whereis_name({room, <<"100">>}),
    ok = sys:suspend(Room),
    Phone1 = phone:invite(phone:sdp(Phone, "sendonly"), Phone),
    lobby_case:until(fun() -> {ok, #{direction := Direction}} = lobby_member:find(Id), Direction =:= sendonly end),
    Call = lobby_registry:whereis_name({member, Id}),
    exit(Call, kill),
    lobby_case:until(fun() -> not lists:member(lobby_registry:whereis_name({member, Id}), [undefined, Call]) end),
    ok = sys:resume(Room),
    Response = next([100], Phone1),
    ?assertEqual({200, "2 INVITE"}, {phone:status(Response), phone:header("CSeq", Response)}),
    phone:ack(Phone1),
    {Phone2, _} = reinvite("sendrecv", Phone1),
    lobby_case:until(fun() -> modes(<<"100">>, Config) =:= ['SendReceive'] end),
    hang_up(Phone2).

next_number(Number, Phone) ->
    Text = phone:recv(Phone),
    case phone:header("CSeq", Text) of Number -> Text; _ -> next_number(Number, Phone) end.

processes_fail(Config) ->
    {Phone, _} = call(Config),
    Key = hd([K || {K, _} <- lobby_store:all(lobby_calls)]),
    Last = lists:foldl(fun(Name, P) ->
        Before = process(Name),
        exit(Before, kill),
        lobby_case:until(fun() -> up(Name, Before) end),
        answer_all(P, 1500),
        {P1, _} = reinvite("sendonly", P),
        lobby_case:until(fun() -> modes(<<"100">>, Config) =:= ['Inactive'] end),
        answer_all(P1, 200),
        {P2, _} = reinvite("sendrecv", P1),
        ?assertEqual(['SendReceive'], modes(<<"100">>, Config)),
        P2
    end, Phone, [{call, Key}, lobby_sip, lobby_connections, lobby_call_sup, {room, <<"100">>}, {gateway, <<"1">>}, lobby_room_sup, lobby_registry]),
    hang_up(Last),
    lobby_case:until(fun() -> members(<<"100">>) =:= [] end).

process(Name) when is_atom(Name) -> whereis(Name);
process(Name) -> lobby_registry:whereis_name(Name).

up(Name, Before) ->
    lists:all(fun(Process) -> whereis(Process) =/= undefined end, [lobby_registry, lobby_room_sup, lobby_call_sup, lobby_sip])
        andalso not lists:member(process(Name), [undefined, Before]) andalso members(<<"100">>) =/= []
        andalso lobby_store:all(lobby_calls) =/= []
        andalso lists:all(fun({Key, _}) -> lobby_registry:whereis_name({call, Key}) =/= undefined end, lobby_store:all(lobby_calls)).

%% Answers INVITEs until none has arrived for this many milliseconds.
answer_all(Phone, Ms) ->
    Text = phone:recv(Phone, Ms),
    case phone:status(Text) of
        none -> ok;
        "INVITE" -> phone:answer(200, Text, phone:sdp(Phone), Phone), answer_all(Phone, Ms);
        _ -> answer_all(Phone, Ms)
    end.

%% Garbage on the SIP port ends no process and leaks no memory, and calls are still answered.
garbage(Config) ->
    Sip = whereis(lobby_sip),
    {Port, Phone} = {element(2, sip(Config)), phone:start(sip(Config))},
    {ok, Socket} = gen_udp:open(0, [binary]),
    Parts = [<<"INVITE sip:100@127.0.0.1 SIP/2.0\r\n">>, <<"Via: SIP/2.0/UDP 1.2.3.4;branch=z9hG4bK-1\r\n">>, <<"From: <sip:a@b>;tag=1\r\n">>,
             <<"To: <sip:a@b>\r\n">>, <<"Call-ID: ">>, <<"CSeq: 1 INVITE\r\n">>, <<"\r\n">>, <<"BYE sip:100@127.0.0.1 SIP/2.0\r\n">>],
    Send = fun() ->
        Pieces = [case rand:uniform(10) of 1 -> rand:bytes(rand:uniform(60)); _ -> Part end || Part <- Parts, rand:uniform(4) > 1],
        ok = gen_udp:send(Socket, {127, 0, 0, 1}, Port, Pieces)
    end,
    Total = fun() ->
        [begin timer:sleep(100), [erlang:garbage_collect(P) || P <- processes()] end || _ <- [1, 2, 3]],
        Ours = [whereis(Name) || Name <- [lobby_sip, lobby_registry, lobby_store, lobby_call_sup, lobby_room_sup, lobby_sup]],
        lists:sum([Bytes || Pid <- Ours, {memory, Bytes} <- [process_info(Pid, memory)]])
            + 8 * lists:sum([ets:info(lobby_registry, memory) | [mnesia:table_info(Table, memory) || Table <- [lobby_calls, lobby_rooms, lobby_gateways]]])
            + length(processes()) * 100000
    end,
    Bursts = fun(N) -> [begin [Send() || _ <- lists:seq(1, 100)], timer:sleep(20) end || _ <- lists:seq(1, N)] end,
    Bursts(20),
    Before = Total(),
    Bursts(100),
    Grown = Total() - Before,
    ct:pal("grown by ~b bytes", [Grown]),
    ?assert(Grown < 300000),
    ?assertEqual(Sip, whereis(lobby_sip)),
    ?assertEqual([], lobby_store:all(lobby_calls)),
    _ = phone:invite(phone:sdp(Phone), Phone),
    ?assertEqual(200, phone:status(phone:recv(Phone))).

%% The messages of a call over TCP arrive in pieces and with blank lines. Our requests use the phone's connection, and
%% aren't retransmitted.
over_tcp(Config) ->
    Phone = phone:start_tcp(sip(Config), "100"),
    phone:send("\r\n\r\n", Phone),
    Calling = phone:send_slowly(phone:sdp(Phone), Phone),
    Response = phone:recv(Calling),
    ?assertEqual(200, phone:status(Response)),
    {_, Port} = sip(Config),
    ?assertEqual("<sip:lobby@127.0.0.1:" ++ integer_to_list(Port) ++ ";transport=tcp>", phone:header("Contact", Response)),
    Talking = phone:learn(Response, Calling),
    phone:ack(Talking),
    {Held, _} = reinvite("sendonly", Talking),
    ?assertEqual(['Inactive'], modes(<<"100">>, Config)),
    _ = gateway:restart_elsewhere(gateway(Config), ["--first-context", "1000", "--first-termination", "1000"]),
    Invite = phone:recv(Held, 4000),
    ?assertMatch({"INVITE", "SIP/2.0/TCP" ++ _}, {phone:status(Invite), phone:header("Via", Invite)}),
    ?assert(phone:quiet(Held, 1200)),
    phone:answer(200, Invite, phone:sdp(Held), Held),
    ?assertEqual("ACK", phone:status(phone:recv(Held))),
    hang_up(Held),
    lobby_case:until(fun() -> members(<<"100">>) =:= [] end),
    %% Text that isn't SIP is skipped. A message that is too long ends the connection.
    phone:send("garbage\r\n\r\n", Held),
    ?assert(phone:quiet(Held, 100)),
    phone:send(lists:duplicate(70000, $a), Held),
    ?assertEqual(closed, phone:recv(Held)).

connections_are_limited(Config) ->
    Connect = fun() -> {ok, S} = gen_tcp:connect({127, 0, 0, 1}, element(2, sip(Config)), [binary, {active, false}]), S end,
    Sockets = [Connect() || _ <- lists:seq(1, 64)],
    lobby_case:until(fun() -> proplists:get_value(active, supervisor:count_children(lobby_connections)) =:= 64 end),
    ?assertEqual({error, closed}, gen_tcp:recv(Connect(), 0, 2000)),
    ?assertEqual({error, timeout}, gen_tcp:recv(hd(Sockets), 0, 100)),
    ok = gen_tcp:close(hd(Sockets)),
    lobby_case:until(fun() -> proplists:get_value(active, supervisor:count_children(lobby_connections)) =:= 63 end),
    timer:sleep(1100),
    ?assertEqual({error, timeout}, gen_tcp:recv(Connect(), 0, 500)).

%% Measures the time from INVITE to 200, including the gateway's replies.
answers_are_quick(Config) ->
    Times = [begin
        Phone = phone:start(sip(Config), "200"),
        Start = erlang:monotonic_time(microsecond),
        Phone1 = phone:invite(phone:sdp(Phone), Phone),
        Response = phone:recv(Phone1),
        Took = erlang:monotonic_time(microsecond) - Start,
        Phone2 = phone:learn(Response, Phone1),
        phone:ack(Phone2),
        hang_up(Phone2),
        Took
    end || _ <- lists:seq(1, 100)],
    Sorted = lists:sort(Times),
    ct:pal("INVITE to 200: median ~b us, at most ~b us", [lists:nth(50, Sorted), lists:last(Sorted)]),
    %% No call waits for a tick. On a busy machine, only some of the calls show this.
    ?assert(lists:nth(10, Sorted) =< 10000).

%% SIPp makes 200 calls at 20 a second, 50 calls over a network that loses, duplicates and delays datagrams, and 50
%% calls over TCP.
sipp(Config) ->
    {_, Port} = sip(Config),
    ?assertEqual("0", sipp(Port, "-r 20 -m 200 -d 1000", Config)),
    lobby_case:until(fun() -> members(<<"100">>) =:= [] end),
    Relay = relay:start(sip(Config), #{lose => 0.1, double => 0.1, delay => 30}),
    {_, RelayPort} = relay:address(Relay),
    ?assertEqual("0", sipp(RelayPort, "-r 20 -m 50 -d 500", Config)),
    %% The room has no members as soon as it asks the gateway to subtract their terminations.
    lobby_case:until(fun() -> members(<<"100">>) =:= [] end),
    lobby_case:until(fun() -> length(gateway:contexts(lists:seq(1, 400), gateway(Config))) =:= 1 end),
    ?assertEqual("0", sipp(Port, "-t t1 -r 20 -m 50 -d 500", Config)),
    lobby_case:until(fun() -> members(<<"100">>) =:= [] end).

sipp(Port, Options, Config) ->
    {_, Own} = gateway:free_address(),
    Log = filename:join(proplists:get_value(priv_dir, Config), "sipp.log"),
    Command = io_lib:format("timeout 60 sipp -sn uac 127.0.0.1:~b -i 127.0.0.1 -p ~b -s 100 ~s -nostdin > ~s 2>&1; echo $?", [Port, Own, Options, Log]),
    string:trim(os:cmd(lists:flatten(Command))).

%% Three baresips with tones are customer, agent and coach. First, each hears the two others. Then the customer doesn't
%% hear the coach. Finally the customer is isolated.
baresips(Config) ->
    {_, Port} = sip(Config),
    Tones = [Agent, Coach, Customer] = [400, 1000, 2000],
    %% The path is short, because baresip truncates long paths.
    Temporary = string:trim(os:cmd("mktemp -d")),
    Folder = fun(Tone) -> filename:join(Temporary, integer_to_list(Tone)) end,
    Uri = "sip:100@127.0.0.1:" ++ integer_to_list(Port),
    Ports = [baresip:start(Folder(Tone), Tone, Uri, 11) || Tone <- Tones],
    lobby_case:until(fun() -> length(members(<<"100">>)) =:= 3 end),
    timer:sleep(3000),
    [ok = lobby_member:change(id_of(Tone), #{role => Role})
     || {Tone, Role} <- [{Agent, <<"agent">>}, {Coach, <<"coach">>}, {Customer, <<"customer">>}]],
    ok = people:set_rules(<<"100">>, lobby_rules:preset(coaching)),
    timer:sleep(3000),
    ok = people:isolate(id_of(Customer)),
    [receive {P, {exit_status, _}} -> ok after 15000 -> error(no_end) end || P <- Ports],
    Heard = fun(Seconds) -> [{Tone, baresip:heard(Folder(Tone), Tones, Seconds)} || Tone <- Tones] end,
    ?assertEqual([{Agent, [Coach, Customer]}, {Coach, [Agent, Customer]}, {Customer, [Agent, Coach]}], Heard({1.0, 2.5})),
    ?assertEqual([{Agent, [Coach, Customer]}, {Coach, [Agent, Customer]}, {Customer, [Agent]}], Heard({4.2, 5.5})),
    ?assertEqual([{Agent, [Coach]}, {Coach, [Agent]}, {Customer, []}], Heard({7.5, 8.5})),
    ok = file:del_dir_r(Temporary),
    lobby_case:until(fun() -> members(<<"100">>) =:= [] end).

id_of(Tone) ->
    Name = "tone" ++ integer_to_list(Tone),
    Rows = [Row || Room <- lobby_room:names(), {_, Row} <- lobby_store:group(lobby_members, Room)],
    [Id] = [Id || {Id, Caller} <- maps:to_list(lobby_call:callers(Rows)), string:find(Caller, Name) =/= nomatch],
    Id.
