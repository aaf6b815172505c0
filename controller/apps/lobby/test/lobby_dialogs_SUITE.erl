%% Tests the responses of a call in its dialog (RFC 3261, RFC 3264, RFC 4028), and the addresses to which the gateway
%% sends. Sections are those of RFC 3261, unless another RFC is named.
-module(lobby_dialogs_SUITE).

-include_lib("stdlib/include/assert.hrl").

-compile([export_all]).

-import(lobby_answers_SUITE, [message/3, call/1, status/1, sip/1]).

all() ->
    [a_merged_request, a_cancel_of_another_branch, an_old_bye, a_refused_invite_ends_no_call, a_refusal_has_a_reason, a_foreign_address,
     nothing_is_sent_before_the_ack, an_answer_at_once, a_cancel_while_he_waits, an_invite_while_one_waits,
     timers_for_who_does_not_know_them].

init_per_testcase(Case, Config) -> 
    ok = application:load(lobby),
    Gateway = gateway:start(),
    Sip = gateway:free_address(),
    More = case Case of a_refused_invite_ends_no_call -> [{silent_after, 1000}, {room_audit, 500}]; _ -> [] end,
    [ok = application:set_env(lobby, Key, Value)
     || {Key, Value} <- [{gateways, [gateway:config(<<"1">>, Gateway)]}, {sip, Sip}, {http, gateway:free_address()} | More]],
    {ok, _} = application:ensure_all_started(lobby),
    lobby_case:until(fun() -> length(lobby_gateway:serving()) =:= 1 end),
    [{sip, Sip} | Config].

end_per_testcase(_, Config) ->
    ok = lobby_case:stop(),
    Config.

%% Sends a request of the same call with this branch.
send(Method, Branch, Phone) ->
    Body = case Method of "INVITE" -> phone:sdp(Phone); _ -> "" end,
    Port = integer_to_list(phone:port(Phone)),
    phone:send(message(Method ++ " sip:100@127.0.0.1 SIP/2.0",
                       [{"Via", "SIP/2.0/UDP 127.0.0.1:" ++ Port ++ ";rport;branch=z9hG4bK" ++ Branch}, {"Call-ID", "merged"}, {"From", "<sip:a@127.0.0.1>;tag=1"},
                        {"CSeq", "7 " ++ Method}, {"Contact", "<sip:a@127.0.0.1:" ++ Port ++ ">"}, {"Content-Type", "application/sdp"}], Body), Phone).

%% See section 8.2.2.2.
a_merged_request(Config) ->
    Phone = phone:start(sip(Config)),
    send("INVITE", "one", Phone),
    First = phone:recv(Phone),
    ?assertEqual(200, phone:status(First)),
    send("INVITE", "two", Phone),
    ?assertEqual(482, phone:status(until_not(200, Phone))),
    send("INVITE", "one", Phone),
    ?assertEqual(First, phone:recv(Phone)).

until_not(Status, Phone) ->
    Text = phone:recv(Phone),
    case phone:status(Text) of Status -> until_not(Status, Phone); _ -> Text end.

%% See section 9.2.
a_cancel_of_another_branch(Config) ->
    Phone = phone:start(sip(Config)),
    send("INVITE", "one", Phone),
    ?assertEqual(200, phone:status(phone:recv(Phone))),
    send("CANCEL", "two", Phone),
    ?assertEqual(481, phone:status(until_not(200, Phone))),
    ?assertEqual(1, length(lobby_store:all(lobby_calls))).

%% See section 12.2.2.
an_old_bye(Config) ->
    Phone = phone:number(5, call(Config)),
    P1 = phone:request("OPTIONS", "", Phone),
    ?assertEqual(200, status(P1)),
    ?assertEqual(500, status(phone:request("BYE", "", phone:number(1, P1)))),
    ?assertEqual(1, length(lobby_store:all(lobby_calls))),
    ?assertEqual(200, status(phone:request("BYE", "", P1))).

%% See section 14.1. The phone is re-invited because it is silent.
a_refused_invite_ends_no_call(Config) ->
    Phone = call(Config),
    [begin
         Invite = phone:recv(Phone, 3000),
         ?assertEqual({Status, "INVITE"}, {Status, phone:status(Invite)}),
         phone:answer(Status, Invite, Phone),
         ?assertEqual({Status, "ACK"}, {Status, phone:status(phone:recv(Phone))})
     end || Status <- [488, 500, 401, 503]],
    ?assertEqual(1, length(lobby_store:all(lobby_calls))).

%% See section 20.43.
a_refusal_has_a_reason(Config) ->
    [?assertEqual({Line, 488, Warning}, begin
         Phone = phone:start(sip(Config)),
         P1 = phone:invite(phone:sdp(Phone) ++ Line, Phone),
         Answer = phone:recv(P1),
         {Line, phone:status(Answer), phone:header("Warning", Answer)}
     end) || {Line, Warning} <- [{"a=ptime:30\r\n", "306 lobby \"packets must be of 20 ms\""}, {"a=maxptime:10\r\n", "306 lobby \"packets must be of 20 ms\""}]].

%% A caller can't make the gateway send speech to a foreign address.
a_foreign_address(Config) ->
    Phone = phone:start(sip(Config)),
    Foreign = fun(P) -> re:replace(phone:sdp(P), "c=IN IP4 127.0.0.1", "c=IN IP4 127.0.0.9", [{return, list}]) end,
    P1 = phone:invite(Foreign(Phone), Phone),
    Answer = phone:recv(P1),
    ?assertEqual({488, "399 lobby \"media must go to the caller's own address\""}, {phone:status(Answer), phone:header("Warning", Answer)}),
    Talking = call(Config),
    ?assertEqual(488, status(phone:request("INVITE", Foreign(Talking), Talking))),
    ?assertEqual(1, length(lobby_store:all(lobby_calls))).

nothing_is_sent_before_the_ack(Config) ->
    Phone = phone:start(sip(Config)),
    Calling = phone:invite(phone:sdp(Phone), Phone),
    Response = phone:recv(Calling),
    ?assertEqual(200, phone:status(Response)),
    timer:sleep(400),
    ?assertEqual(0, caller:received(phone:media(Phone))),
    phone:ack(phone:learn(Response, Calling)),
    lobby_case:until(fun() -> caller:received(phone:media(Phone)) > 5 end).

%% The room doesn't answer, so the caller gets a 100 (section 17.2.1).
an_answer_at_once(Config) ->
    _ = call(Config),
    ok = sys:suspend(lobby_registry:whereis_name({room, <<"100">>})),
    Phone = phone:start(sip(Config)),
    _ = phone:invite(phone:sdp(Phone), Phone),
    Answer = phone:received(Phone, 2000),
    ?assertEqual(100, phone:status(Answer)),
    ?assertEqual(nomatch, re:run(phone:header("To", Answer), "tag=")),
    ok = sys:resume(lobby_registry:whereis_name({room, <<"100">>})),
    ?assertEqual(200, phone:status(phone:recv(Phone))).

%% The caller cancels while the room doesn't answer (section 9.2). When the room continues, it has no additional member.
a_cancel_while_he_waits(Config) ->
    _ = call(Config),
    Room = lobby_registry:whereis_name({room, <<"100">>}),
    ok = sys:suspend(Room),
    Phone = phone:start(sip(Config)),
    send("INVITE", "one", Phone),
    ?assertEqual(100, phone:status(phone:received(Phone, 1000))),
    send("CANCEL", "one", Phone),
    ?assertEqual([200, 487], lists:sort([phone:status(phone:received(Phone, 1000)) || _ <- [answer, refusal]])),
    ok = sys:resume(Room),
    ?assertEqual(1, length(lobby_store:all(lobby_calls))),
    lobby_case:until(fun() -> #{members := Members} = people:describe(<<"100">>), map_size(Members) =:= 1 end).

%% While a re-INVITE waits for the room, another re-INVITE is answered without it (section 14.2), and so is a BYE.
an_invite_while_one_waits(Config) ->
    Phone = call(Config),
    Room = lobby_registry:whereis_name({room, <<"100">>}),
    ok = sys:suspend(Room),
    P1 = phone:invite(phone:sdp(Phone, "inactive"), Phone),
    ?assertEqual(100, phone:status(phone:received(P1, 1000))),
    P2 = phone:invite(phone:sdp(P1), P1),
    Refusal = phone:received(P2, 1000),
    ?assertEqual({500, "1"}, {phone:status(Refusal), phone:header("Retry-After", Refusal)}),
    _ = phone:request("BYE", "", P2),
    ?assertEqual(200, phone:status(phone:received(P2, 1000))),
    ok = sys:resume(Room),
    lobby_case:until(fun() -> lobby_room:names() =:= [] end).

%% A proxy has asked for the timer (RFC 4028, section 9).
timers_for_who_does_not_know_them(Config) ->
    Phone = phone:start(sip(Config)),
    P1 = phone:invite(phone:sdp(Phone), ["Session-Expires: 1800"], Phone),
    Answer = phone:recv(P1),
    ?assertEqual({200, "1800;refresher=uas", none}, {phone:status(Answer), phone:header("Session-Expires", Answer), phone:header("Require", Answer)}).
