-module(lobby_sdp_tests).

-include_lib("eunit/include/eunit.hrl").
-include("properties.hrl").

-export([prop_any_text_is_answered_or_refused/0]).

-define(LOCAL, {{{192, 0, 2, 1}, 30000}, pcmu}).

lines(Lines) -> iolist_to_binary([[Line, "\r\n"] || Line <- Lines]).

offer(Lines) ->
    lobby_sdp:parse(lines(["v=0", "o=alice 1 1 IN IP4 192.0.2.9", "s=-", "c=IN IP4 192.0.2.9", "t=0 0" | Lines])).

plain_test() ->
    {ok, Session} = offer(["m=audio 4000 RTP/AVP 0 8 101", "a=rtpmap:101 telephone-event/8000"]),
    ?assertEqual({{{192, 0, 2, 9}, 4000}, pcmu}, lobby_sdp:media(Session)),
    ?assertEqual(sendrecv, lobby_sdp:direction(Session)),
    ?assertEqual(lines(["v=0", "o=- 5 1 IN IP4 192.0.2.1", "s=-", "c=IN IP4 192.0.2.1", "t=0 0", "m=audio 30000 RTP/AVP 0",
                        "a=rtpmap:0 PCMU/8000", "a=ptime:20", "a=sendrecv"]), lobby_sdp:answer(Session, ?LOCAL, 5, 1)).

the_first_common_format_is_taken_test() ->
    {ok, Session} = offer(["m=audio 4000 RTP/AVP 9 8 0"]),
    ?assertMatch({_, pcma}, lobby_sdp:media(Session)),
    Answer = lobby_sdp:answer(Session, {{{192, 0, 2, 1}, 30000}, pcma}, 1, 1),
    ?assertNotEqual(nomatch, binary:match(Answer, <<"m=audio 30000 RTP/AVP 8\r\na=rtpmap:8 PCMA/8000">>)).

lines_may_end_without_cr_test() ->
    ?assertMatch({ok, _}, lobby_sdp:parse(<<"v=0\nc=IN IP4 10.0.0.1\nm=audio 9 RTP/AVP 0\n">>)).

the_streams_own_address_counts_test() ->
    {ok, Session} = offer(["m=audio 4000 RTP/AVP 0", "c=IN IP4 192.0.2.10"]),
    ?assertMatch({{{192, 0, 2, 10}, 4000}, _}, lobby_sdp:media(Session)).

%% RFC 3264, section 6: an answer has as many streams as the offer, in the same order, and port 0 declines a stream.
others_are_declined_in_their_places_test() ->
    {ok, Session} = offer(["m=video 5000 RTP/AVP 96 97", "m=audio 4000 RTP/SAVP 0", "m=audio 4002 RTP/AVP 8", "m=image 9 udptl t38"]),
    Answer = lobby_sdp:answer(Session, {{{192, 0, 2, 1}, 30000}, pcma}, 1, 1),
    ?assertEqual(["m=video 0 RTP/AVP 96 97", "m=audio 0 RTP/SAVP 0", "m=audio 30000 RTP/AVP 8", "m=image 0 udptl t38"],
                 [Line || Line = "m=" ++ _ <- string:tokens(binary_to_list(Answer), "\r\n")]),
    Offer = lobby_sdp:offer(Session, {{{192, 0, 2, 1}, 30002}, pcma}, {1, 2}),
    ?assertEqual(["m=video 0 RTP/AVP 96 97", "m=audio 0 RTP/SAVP 0", "m=audio 30002 RTP/AVP 8", "m=image 0 udptl t38"],
                 [Line || Line = "m=" ++ _ <- string:tokens(binary_to_list(Offer), "\r\n")]).

hold_test_() ->
    [?_test(begin
         {ok, Session} = offer(["m=audio 4000 RTP/AVP 0", "a=" ++ Offered]),
         ?assertEqual(list_to_atom(Offered), lobby_sdp:direction(Session)),
         ?assertNotEqual(nomatch, binary:match(lobby_sdp:answer(Session, ?LOCAL, 1, 2), list_to_binary("a=" ++ Answered)))
     end) || {Offered, Answered} <- [{"sendonly", "recvonly"}, {"recvonly", "sendonly"}, {"inactive", "inactive"}]].

hold_by_address_test() ->
    {ok, Session} = offer(["m=audio 4000 RTP/AVP 0", "c=IN IP4 0.0.0.0", "a=sendrecv"]),
    ?assertEqual(inactive, lobby_sdp:direction(Session)).

own_first_offer_test() ->
    ?assertEqual(lines(["v=0", "o=- 7 1 IN IP4 192.0.2.1", "s=-", "c=IN IP4 192.0.2.1", "t=0 0", "m=audio 30000 RTP/AVP 0",
                        "a=rtpmap:0 PCMU/8000", "a=ptime:20", "a=sendrecv"]), lobby_sdp:offer(none, ?LOCAL, {7, 1})).

refused_test_() ->
    [?_assertEqual({error, Reason}, offer(Lines))
     || {Reason, Lines} <- [{no_audio, []}, {no_audio, ["m=video 4000 RTP/AVP 0"]}, {no_audio, ["m=audio 0 RTP/AVP 0"]},
                            {no_audio, ["m=audio 4000 RTP/SAVP 0"]}, {no_audio, ["m=audio 65536 RTP/AVP 0"]},
                            {no_audio, ["m=audio -1 RTP/AVP 0"]}, {no_audio, ["m=audio 4000/2 RTP/AVP 0"]},
                            {no_common_format, ["m=audio 4000 RTP/AVP 9 18"]}, {bad_syntax, ["m=audio 4000"]},
                            {bad_address, ["m=audio 4000 RTP/AVP 0", "c=IN IP4 host.example"]},
                            {bad_address, ["m=audio 4000 RTP/AVP 0", "c=IN IP4 224.2.0.1/127"]},
                            {bad_address, ["m=audio 4000 RTP/AVP 0", "c=IN IP4 255.255.255.255"]},
                            {bad_address, ["m=audio 4000 RTP/AVP 0", "c=IN IP4 1.2.3"]},
                            {bad_packet_time, ["m=audio 4000 RTP/AVP 0", "a=ptime:30"]}, {bad_packet_time, ["m=audio 4000 RTP/AVP 0", "a=ptime:10"]},
                            {bad_packet_time, ["m=audio 4000 RTP/AVP 0", "a=ptime:x"]}, {bad_packet_time, ["m=audio 4000 RTP/AVP 0", "a=maxptime:10"]},
                            {bad_packet_time, ["m=audio 4000 RTP/AVP 0", "a=ptime:20", "a=maxptime:19"]}, {bad_packet_time, ["m=audio 4000 RTP/AVP 0", "a=maxptime:"]},
                            {bad_syntax, ["m=audio 4000 RTP/AVP 0" | lists:duplicate(500, "")]},
                            {bad_syntax, lists:duplicate(17, "m=audio 4000 RTP/AVP 0")}]]
    ++ [?_assertEqual({error, bad_address}, lobby_sdp:parse(<<"v=0\r\nc=IN IP6 ::1\r\nm=audio 4000 RTP/AVP 0\r\n">>)),
        ?_assertEqual({error, no_audio}, lobby_sdp:parse(<<>>))].

%% See RFC 4566, section 6, and RFC 3264, section 5.1.
packets_of_20_ms_test() ->
    [?assertMatch({Lines, {ok, _}}, {Lines, offer(["m=audio 4000 RTP/AVP 0" | Lines])})
     || Lines <- [["a=ptime:20"], ["a=maxptime:20"], ["a=maxptime:150", "a=ptime:20"], ["a=maxptime:20.5"]]],
    %% Only the second stream has a ptime of 20, so it is chosen.
    {ok, Session} = offer(["m=audio 4000 RTP/AVP 0", "a=ptime:30", "m=audio 4002 RTP/AVP 0", "a=ptime:20"]),
    ?assertMatch({{_, 4002}, _}, lobby_sdp:media(Session)).

%% See RFC 3261, section 20.43.
a_refusal_has_a_reason_test() ->
    [?assertMatch([{warning, [{Code, <<"lobby">>, <<$", _/binary>>}]}], lobby_sdp:warning(Reason))
     || {Reason, Code} <- [{no_audio, 304}, {no_common_format, 305}, {bad_address, 301}, {bad_packet_time, 306}, {bad_syntax, 399}, {foreign_address, 399}]].

%% Generates lines of session descriptions, and lines with arbitrary bytes.
text() ->
    Word = oneof([<<"m=">>, <<"c=">>, <<"a=">>, <<"audio ">>, <<"video ">>, <<"4000 ">>, <<"0 ">>, <<"8 ">>, <<"RTP/AVP ">>,
                  <<"IN IP4 ">>, <<"10.0.0.1">>, <<"sendonly">>, <<"\r\n">>, <<"\n">>,
                  <<"m=audio 4000 RTP/AVP 0\r\n">>, <<"c=IN IP4 10.0.0.1\r\n">>, <<"a=ptime:">>, <<"a=maxptime:">>, binary()]),
    ?BIND(Words, list(Word), iolist_to_binary(Words)).

%% The answer to an accepted offer has as many streams as the offer, and accepts exactly one of them.
prop_any_text_is_answered_or_refused() ->
    ?FORALL(Text, text(),
            case lobby_sdp:parse(Text) of
                {error, Reason} -> lists:member(Reason, [no_audio, no_common_format, bad_address, bad_packet_time, bad_syntax]);
                {ok, Session} ->
                    Answer = lobby_sdp:answer(Session, ?LOCAL, 1, 1),
                    Streams = [Line || Line = <<"m=", _/binary>> <- binary:split(Answer, <<"\r\n">>, [global])],
                    Offered = [Line || Line = <<"m=", _/binary>> <- binary:split(Text, <<"\n">>, [global])],
                    length(Streams) =:= length(Offered)
                        andalso length([taken || Line <- Streams, binary:match(Line, <<" 30000 ">>) =/= nomatch]) =:= 1
            end).

properties_test_() ->
    [?property(prop_any_text_is_answered_or_refused, 2000)].
