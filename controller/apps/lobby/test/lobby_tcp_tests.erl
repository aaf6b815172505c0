-module(lobby_tcp_tests).

-include_lib("eunit/include/eunit.hrl").

message(Length, Body) ->
    iolist_to_binary(["OPTIONS sip:a@b SIP/2.0\r\n", Length, "X: y\r\n\r\n", Body]).

one_message_test() ->
    Message = message("Content-Length: 3\r\n", "abc"),
    ?assertEqual({ok, Message, <<>>}, lobby_tcp:frame(Message)),
    ?assertEqual({ok, Message, <<"next">>}, lobby_tcp:frame(<<Message/binary, "next">>)).

short_and_strange_spellings_test() ->
    [?assertEqual({ok, message(Length, "abc"), <<"d">>}, lobby_tcp:frame(message(Length, "abcd")))
     || Length <- ["l: 3\r\n", "content-length:3\r\n", "CONTENT-LENGTH \t: 3 \r\n"]].

without_a_length_there_is_no_body_test() ->
    ?assertEqual({ok, message("", ""), <<"abc">>}, lobby_tcp:frame(message("", "abc"))),
    %% This header only ends like Content-Length.
    ?assertEqual({ok, message("X-Content-Length: 3\r\n", ""), <<"abc">>}, lobby_tcp:frame(message("X-Content-Length: 3\r\n", "abc"))).

blank_lines_are_skipped_test() ->
    Message = message("Content-Length: 0\r\n", ""),
    ?assertEqual({ok, Message, <<>>}, lobby_tcp:frame(<<"\r\n\r\n\r\n", Message/binary>>)),
    ?assertEqual(more, lobby_tcp:frame(<<"\r\n\r\n">>)).

parts_of_a_message_test() ->
    Message = message("Content-Length: 3\r\n", "abc"),
    [?assertEqual(more, lobby_tcp:frame(binary:part(Message, 0, N))) || N <- lists:seq(0, byte_size(Message) - 1)].

too_long_test() ->
    ?assertEqual({error, too_long}, lobby_tcp:frame(message("Content-Length: 65500\r\n", ""))),
    ?assertEqual({error, too_long}, lobby_tcp:frame(message("Content-Length: 999999999\r\n", ""))),
    ?assertEqual({error, too_long}, lobby_tcp:frame(binary:copy(<<"a">>, 8196))),
    ?assertEqual(more, lobby_tcp:frame(binary:copy(<<"a">>, 8195))),
    Head = <<(binary:copy(<<"a">>, 8192))/binary, "\r\n\r\n">>,
    ?assertEqual({ok, Head, <<>>}, lobby_tcp:frame(Head)).

%% The connections' supervisor was killed, and restarts before the old connections have ended.
connections_start_when_the_old_ones_have_ended_test() ->
    Old = spawn(fun() -> receive stop -> timer:sleep(50) end end),
    true = register(lobby_connections, Old),
    Old ! stop,
    {ok, New} = lobby_sup:start_link(lobby_connections, {many, lobby_tcp}),
    ?assertNot(is_process_alive(Old)),
    gen_server:stop(New).
