-module(lobby_sip_message_tests).

-include_lib("eunit/include/eunit.hrl").
-include_lib("p1_sip/include/esip.hrl").
-include("properties.hrl").

-export([prop_any_datagram_is_read_or_refused/0]).

-define(SOURCE, {{192, 0, 2, 7}, 4711}).
-define(INVITE, ["INVITE sip:100@192.0.2.1 SIP/2.0", "Via: SIP/2.0/UDP 10.0.0.5:5070;branch=z9hG4bK-1;rport", "Max-Forwards: 70",
                 "From: \"A\" <sip:alice@10.0.0.5>;tag=OqDAfgewV", "To: <sip:100@192.0.2.1>", "Call-ID: AbC", "CSeq: 7 INVITE",
                 "Contact: <sip:alice@10.0.0.5:5070>"]).

codec_test_() ->
    {setup, fun() -> ok end,
     [fun a_request_is_read/0, fun what_is_missing_is_a_bad_request/0, fun what_is_no_message_is_refused/0,
      fun the_source_is_written_into_the_via/0, fun responses_go_where_rfc_3581_says/0, fun tags_stay_as_they_are/0,
      fun addresses_of_ipv6_stay/0, fun only_ascii_letters_change_their_case/0, fun what_follows_the_body_is_cut_off/0, fun a_response_has_what_it_needs/0,
      fun a_provisional_answer_makes_no_dialog/0, fun reading_takes_linear_time/0,
      ?property(prop_any_datagram_is_read_or_refused, 3000)]}.

%% Several roles may name the same header. A message may have several headers that roles name, but none of them twice.
headers_of_roles_test_() ->
    Roles = [{header, Name, [{{10, 0, 0, 0}, 8}]} || Name <- [<<"x-a">>, <<"x-b">>, <<"x-a">>]],
    {setup, fun() -> ok = application:set_env(lobby, roles, Roles) end,
     fun(_) -> application:unset_env(lobby, roles) end,
     fun() ->
        {ok, Message} = decode(?INVITE ++ ["X-A: coach", "X-B: agent"]),
        ?assertEqual([{<<"x-a">>, <<"coach">>}, {<<"x-b">>, <<"agent">>}], [Role || {role, Role} <- Message#sip.hdrs]),
        ?assertMatch({refused, 400, _}, decode(?INVITE ++ ["X-A: coach", "x-a: agent"]))
     end}.

text(Lines, Body) -> iolist_to_binary([[[Line, "\r\n"] || Line <- Lines], "\r\n", Body]).

decode(Lines) -> lobby_sip_message:decode(text(Lines, ""), ?SOURCE).

without(Name) -> [Line || Line <- ?INVITE, string:prefix(Line, Name) =:= nomatch].

a_request_is_read() ->
    {ok, Message} = decode(?INVITE),
    ?assertEqual(7, lobby_sip_message:sequence(Message)),
    ?assertEqual(<<"OqDAfgewV">>, lobby_sip_message:tag(from, Message)),
    ?assertEqual(<<>>, lobby_sip_message:tag(to, Message)),
    ?assertMatch([{<<>>, #uri{user = <<"alice">>}, []}], lobby_sip_message:headers(contact, Message)).

what_is_missing_is_a_bad_request() ->
    [?assertMatch({refused, 400, _}, decode(without(Name))) || Name <- ["From", "To", "Call-ID", "CSeq"]],
    ?assertMatch({refused, 400, _}, decode(without("From") ++ ["From: garbage;tag=1"])),
    ?assertMatch({refused, 400, _}, decode(without("CSeq") ++ ["CSeq: 2147483648 INVITE"])),
    ?assertMatch({refused, 400, _}, decode(?INVITE ++ ["Content-Length: 5"])),
    %% The response has the value of a malformed header unchanged.
    {refused, 400, Message} = decode(without("CSeq") ++ ["CSeq: -1 INVITE"]),
    Text = lobby_sip_message:encode(lobby_sip_message:response(400, Message, <<"t">>, {[], <<>>})),
    ?assertNotEqual(nomatch, binary:match(Text, <<"\r\ncseq: -1 INVITE\r\n">>)).

%% esip takes half a minute to read the first message here.
reading_takes_linear_time() ->
    [begin
         Text = text(?INVITE ++ [[Name, ": ", lists:join(",", lists:duplicate(Count, Value))]], ""),
         {Time, _} = timer:tc(fun() -> lobby_sip_message:decode(Text, ?SOURCE) end),
         ?assert(Time < 1000000)
     end || Name <- ["Contact", "Route", "Via", "Accept", "Authorization: Digest a"],
            {Count, Value} <- [{5800, "<sip:a@b>"}, {700, "<sip:a@b>"}, {29000, ";"}, {4000, ";"}, {1, lists:duplicate(8000, $")},
                               {1, ["<", lists:duplicate(7900, $ ), ">"]}, {1, lists:duplicate(7900, $\\)}]].

what_is_no_message_is_refused() ->
    [?assertEqual({error, not_sip}, lobby_sip_message:decode(Text, ?SOURCE))
     || Text <- [<<>>, <<"\r\n\r\n">>, <<"hello">>, text(without("Via"), ""), <<"SIP/2.0 200 OK\r\n\r\n">>,
                 text(["SIP/2.0 200 OK" | tl(without("From"))], "")]],
    %% In RFC 2543, a tag in From is optional.
    ?assertMatch({ok, _}, decode(without("From") ++ ["From: <sip:alice@10.0.0.5>"])).

via(Message) -> hd(lobby_sip_message:header(via, Message)).

the_source_is_written_into_the_via() ->
    {ok, Message} = decode(?INVITE),
    #via{params = Params} = via(Message),
    ?assertEqual([{<<"branch">>, <<"z9hG4bK-1">>}, {<<"received">>, <<"192.0.2.7">>}, {<<"rport">>, <<"4711">>}], lists:sort(Params)).

responses_go_where_rfc_3581_says() ->
    Target = fun(Via) ->
        {ok, Message} = decode(["INVITE sip:100@192.0.2.1 SIP/2.0", "Via: " ++ Via | lists:nthtail(2, ?INVITE)]),
        lobby_sip_message:response_target(Message, ?SOURCE)
    end,
    ?assertEqual(?SOURCE, Target("SIP/2.0/UDP 10.0.0.5:5070;branch=z9hG4bK-1;rport")),
    ?assertEqual({{192, 0, 2, 7}, 5070}, Target("SIP/2.0/UDP 10.0.0.5:5070;branch=z9hG4bK-1")),
    ?assertEqual({{192, 0, 2, 7}, 5060}, Target("SIP/2.0/UDP 10.0.0.5;branch=z9hG4bK-1")).

tags_stay_as_they_are() ->
    {ok, Message} = decode(?INVITE),
    Response = lobby_sip_message:encode(lobby_sip_message:response(200, Message, <<"Ours">>, {[], <<>>})),
    [?assertNotEqual(nomatch, binary:match(Response, Part))
     || Part <- [<<"From: \"A\" <sip:alice@10.0.0.5>;tag=OqDAfgewV\r\n">>, <<"To: <sip:100@192.0.2.1>;tag=Ours\r\n">>, <<"Call-ID: AbC\r\n">>]].

only_ascii_letters_change_their_case() ->
    {ok, Message} = decode(?INVITE ++ ["Require: A\303\211"]),
    ?assertEqual([[<<"a\303\211">>]], [Names || {require, Names} <- Message#sip.hdrs]).

addresses_of_ipv6_stay() ->
    Lines = ["INVITE sip:100@[fd00::1]:5060 SIP/2.0", "Via: SIP/2.0/UDP [fd00::2]:5070;branch=z9hG4bK-1",
             "From: <sip:alice@[fd00::2]>;tag=1", "To: <sip:100@[2001:db8::192.0.2.1]>", "Call-ID: 1@[fd00::2]", "CSeq: 7 INVITE",
             "Contact: <sip:alice@[fd00::2]:5070;ob>"],
    {ok, Message} = lobby_sip_message:decode(text(Lines ++ ["Content-Length: 8"], "c=[::1]\n"), ?SOURCE),
    ?assertEqual(<<"c=[::1]\n">>, lobby_sip_message:body(Message)),
    Text = lobby_sip_message:encode(Message),
    [?assertNotEqual(nomatch, binary:match(Text, list_to_binary(Line)))
     || Line <- ["INVITE sip:100@[fd00::1]:5060 SIP/2.0", "SIP/2.0/UDP [fd00::2]:5070;", "From: <sip:alice@[fd00::2]>;tag=1",
                 "To: <sip:100@[2001:db8::192.0.2.1]>", "Call-ID: 1@[fd00::2]", "Contact: <sip:alice@[fd00::2]:5070;ob>", "c=[::1]\n"]].

what_follows_the_body_is_cut_off() ->
    {ok, Message} = lobby_sip_message:decode(text(?INVITE ++ ["Content-Length: 3"], "v=0more"), ?SOURCE),
    ?assertEqual(<<"v=0">>, lobby_sip_message:body(Message)).

a_response_has_what_it_needs() ->
    {ok, Message} = decode(?INVITE ++ ["Record-Route: <sip:p1;lr>, <sip:p2;lr>", "X-Other: 1"]),
    Lines = fun(Status) ->
        Text = lobby_sip_message:encode(lobby_sip_message:response(Status, Message, <<"t">>, {[{'retry-after', {10, []}}], <<"v=0">>})),
        binary:split(Text, <<"\r\n">>, [global])
    end,
    ?assertMatch([<<"SIP/2.0 200 OK">> | _], Lines(200)),
    [?assert(lists:member(Line, Lines(200))) || Line <- [<<"CSeq: 7 INVITE">>, <<"Retry-After: 10">>, <<"Content-Length: 3">>,
                                                         <<"Record-Route: <sip:p1;lr>, <sip:p2;lr>">>]],
    ?assertNot(lists:member(<<"X-Other: 1">>, Lines(200))),
    ?assertNot(lists:member(<<"Record-Route: <sip:p1;lr>, <sip:p2;lr>">>, Lines(486))).

%% A 100 has no tag of ours (section 8.2.6.2).
a_provisional_answer_makes_no_dialog() ->
    {ok, Message} = decode(?INVITE),
    Text = lobby_sip_message:encode(lobby_sip_message:response(100, Message, <<"Ours">>, {[], <<>>})),
    ?assertNotEqual(nomatch, binary:match(Text, <<"\r\nTo: <sip:100@192.0.2.1>\r\n">>)).

%% Generates a valid message with some bytes changed, or arbitrary bytes.
datagram() ->
    Whole = text(?INVITE ++ ["Session-Expires: 90;refresher=uac", "Require: timer", "Content-Length: 3"], "v=0"),
    Size = byte_size(Whole),
    oneof([binary(), ?BIND(Cuts, list({range(0, Size - 1), oneof([binary(), <<"\r\n">>, <<"[">>, <<"]">>, <<";">>, <<"\"">>, <<"<">>])}),
                           lists:foldl(fun({At, Bytes}, Text) ->
                               Position = min(At, byte_size(Text)),
                               <<Before:Position/binary, After/binary>> = Text,
                               <<Before/binary, Bytes/binary, (binary:part(After, min(1, byte_size(After)), max(0, byte_size(After) - 1)))/binary>>
                           end, Whole, Cuts))]).

%% Each request that is read, or rejected with a status, can be answered. Each response can be encoded again.
prop_any_datagram_is_read_or_refused() ->
    ?FORALL(Datagram, datagram(),
            case lobby_sip_message:decode(Datagram, ?SOURCE) of
                {error, not_sip} -> true;
                {ok, Message = #sip{type = response}} -> is_binary(lobby_sip_message:encode(Message));
                Read ->
                    Message = element(tuple_size(Read), Read),
                    {_, Port} = lobby_sip_message:response_target(Message, ?SOURCE),
                    Port > 0 andalso is_binary(lobby_sip_message:encode(lobby_sip_message:response(400, Message, <<"t">>, {[], <<>>})))
            end).
