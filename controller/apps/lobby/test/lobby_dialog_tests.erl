-module(lobby_dialog_tests).

-include_lib("eunit/include/eunit.hrl").
-include_lib("p1_sip/include/esip.hrl").

-define(OWN, {<<"UDP">>, {{192, 0, 2, 1}, 5060}}).
-define(SOURCE, {{203, 0, 113, 9}, 4711}).

dialog_test_() ->
    {setup, fun() -> ok end,
     [fun own_requests_have_the_dialogs_values/0, fun routes_are_followed/0, fun a_strict_route_is_the_uri/0,
      fun the_ack_has_the_number_of_its_invite/0, fun requests_are_told_apart_by_number/0, fun a_new_contact_is_the_target/0,
      fun requests_go_to_the_contact_or_back/0, fun without_a_contact_there_is_no_dialog/0, fun the_caller_has_a_name/0,
      fun transactions_are_told_apart/0, fun a_refused_invite_ends_no_call/0]}.

invite(More) ->
    Lines = ["INVITE sip:100@192.0.2.1 SIP/2.0", "Via: SIP/2.0/UDP 10.0.0.5:5070;branch=z9hG4bK-1;rport",
             "From: \"Alice A\" <sip:alice@10.0.0.5>;tag=OqDAfgewV", "To: <sip:100@192.0.2.1>", "Call-ID: AbC", "CSeq: 7 INVITE" | More],
    {ok, Message} = lobby_sip_message:decode(iolist_to_binary([[[Line, "\r\n"] || Line <- Lines], "\r\n"]), ?SOURCE),
    Message.

dialog(More) ->
    lobby_dialog:new(invite(["Contact: <sip:alice@10.0.0.5:5070>" | More]), <<"Ours">>).

lines(Message) -> binary:split(lobby_sip_message:encode(Message), <<"\r\n">>, [global]).

own_requests_have_the_dialogs_values() ->
    {Request, Dialog} = lobby_dialog:request(<<"BYE">>, {[], <<>>}, ?OWN, dialog([])),
    [?assert(lists:member(Line, lines(Request)))
     || Line <- [<<"BYE sip:alice@10.0.0.5:5070 SIP/2.0">>, <<"From: <sip:100@192.0.2.1>;tag=Ours">>,
                 <<"To: \"Alice A\" <sip:alice@10.0.0.5>;tag=OqDAfgewV">>, <<"Call-ID: AbC">>, <<"CSeq: 1 BYE">>, <<"Max-Forwards: 70">>]],
    {Next, _} = lobby_dialog:request(<<"INVITE">>, {[], <<>>}, ?OWN, Dialog),
    ?assert(lists:member(<<"CSeq: 2 INVITE">>, lines(Next))),
    ?assertEqual({<<"AbC">>, <<"OqDAfgewV">>}, lobby_dialog:key(Dialog)).

routes_are_followed() ->
    {Request, _} = lobby_dialog:request(<<"BYE">>, {[], <<>>}, ?OWN, dialog(["Record-Route: <sip:10.0.0.1;lr>, <sip:10.0.0.2;lr>"])),
    ?assertMatch([<<"BYE sip:alice@10.0.0.5:5070 SIP/2.0">> | _], lines(Request)),
    ?assert(lists:member(<<"Route: <sip:10.0.0.1;lr>, <sip:10.0.0.2;lr>">>, lines(Request))),
    ?assertEqual({{10, 0, 0, 1}, 5060}, lobby_dialog:target(dialog(["Record-Route: <sip:10.0.0.1;lr>, <sip:10.0.0.2;lr>"]), ?SOURCE)).

a_strict_route_is_the_uri() ->
    {Request, _} = lobby_dialog:request(<<"BYE">>, {[], <<>>}, ?OWN, dialog(["Record-Route: <sip:10.0.0.1>", "Record-Route: <sip:10.0.0.2;lr>"])),
    ?assertMatch([<<"BYE sip:10.0.0.1 SIP/2.0">> | _], lines(Request)),
    ?assert(lists:member(<<"Route: <sip:10.0.0.2;lr>, <sip:alice@10.0.0.5:5070>">>, lines(Request))).

the_ack_has_the_number_of_its_invite() ->
    %% The ACK has the INVITE's number, even if another request was sent after the INVITE.
    {_, Dialog} = lobby_dialog:request(<<"INVITE">>, {[], <<>>}, ?OWN, dialog([])),
    {_, Later} = lobby_dialog:request(<<"BYE">>, {[], <<>>}, ?OWN, Dialog),
    Response = (invite([]))#sip{type = response, hdrs = [{cseq, 1}]},
    ?assert(lists:member(<<"CSeq: 1 ACK">>, lines(lobby_dialog:ack(Response, ?OWN, Later)))).

requests_are_told_apart_by_number() ->
    Numbered = fun(N) -> (invite([]))#sip{hdrs = [{cseq, N}]} end,
    {new, Dialog} = lobby_dialog:received(Numbered(8), dialog([])),
    ?assertEqual(repeated, lobby_dialog:received(Numbered(8), Dialog)),
    ?assertEqual(old, lobby_dialog:received(Numbered(7), Dialog)).

a_new_contact_is_the_target() ->
    Dialog = lobby_dialog:refreshed(invite(["Contact: <sip:alice@10.0.0.6>"]), dialog([])),
    ?assertEqual({{10, 0, 0, 6}, 5060}, lobby_dialog:target(Dialog, ?SOURCE)),
    ?assertEqual({{10, 0, 0, 6}, 5060}, lobby_dialog:target(lobby_dialog:refreshed(invite([]), Dialog), ?SOURCE)).

requests_go_to_the_contact_or_back() ->
    ?assertEqual({{10, 0, 0, 5}, 5070}, lobby_dialog:target(dialog([]), ?SOURCE)),
    Named = lobby_dialog:new(invite(["Contact: <sip:alice@phone.example>"]), <<"Ours">>),
    ?assertEqual(?SOURCE, lobby_dialog:target(Named, ?SOURCE)).

without_a_contact_there_is_no_dialog() ->
    [?assertMatch({400, _}, lobby_sip_message:refusal(invite(Lines))) || Lines <- [[], ["Contact: *"]]],
    ?assertError({badmatch, []}, lobby_dialog:new(invite([]), <<"Ours">>)).

the_caller_has_a_name() ->
    ?assertEqual(<<"Alice A">>, lobby_dialog:caller(dialog([]))).

%% Requests match transactions as in section 17.2.3, and are answered as in sections 8.2.2.2 and 9.2.
transactions_are_told_apart() ->
    Message = fun(Method, Via) ->
        {ok, M} = lobby_sip_message:decode(iolist_to_binary([Method, " sip:100@192.0.2.1 SIP/2.0\r\nVia: SIP/2.0/UDP ", Via, "\r\nFrom: <sip:a@b>;tag=1\r\n"
            "To: <sip:100@192.0.2.1>\r\nCall-ID: c\r\nCSeq: 7 ", Method, "\r\n\r\n"]), ?SOURCE),
        M
    end,
    Invite = Message("INVITE", "h;branch=z9hG4bK1"),
    Answer = lobby_sip_message:response(200, Invite, <<"t">>, {[], <<>>}),
    [?assertEqual({Method, Via, Is}, {Method, Via, lobby_dialog:is_same_transaction(Message(Method, Via), To)})
     || To <- [Invite, Answer], {Method, Via, Is} <- [{"INVITE", "h;branch=z9hG4bK1", true}, {"CANCEL", "h;rport;branch=z9hG4bK1", true}, {"CANCEL", "h;branch=z9hG4bK2", false},
                                                      {"INVITE", "other;branch=z9hG4bK1", false}, {"INVITE", "h:5070;branch=z9hG4bK1", false}, {"INVITE", "h", false}]],
    %% Clients of RFC 2543 have branches without the magic cookie.
    [?assertEqual({Via, Is}, {Via, lobby_dialog:is_same_transaction(Message("CANCEL", Via), Message("INVITE", "h;branch=1"))})
     || {Via, Is} <- [{"h;branch=1", true}, {"h;branch=2", false}, {"h", false}]],
    ?assertNot(lobby_dialog:is_same_transaction((Message("CANCEL", "h"))#sip{hdrs = [{via, [#via{host = <<"h">>}]}, {'call-id', <<"c">>}, {cseq, 8}]}, Message("INVITE", "h"))).

%% Section 14.1 defines the effect of a rejected re-INVITE on its call.
a_refused_invite_ends_no_call() ->
    ?assertEqual([{401, goes_on}, {408, ended}, {481, ended}, {488, goes_on}, {491, again}, {500, goes_on}, {503, goes_on}, {603, goes_on}],
                 [{Status, lobby_dialog:after_refusal(Status)} || Status <- [401, 408, 481, 488, 491, 500, 503, 603]]).
