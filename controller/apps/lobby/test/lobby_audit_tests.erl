-module(lobby_audit_tests).

-include_lib("eunit/include/eunit.hrl").
-include_lib("kernel/include/file.hrl").

%% Runs a test with its own log, whose files have about three lines.
audited(Test) ->
    File = filename:join([os:getenv("TMPDIR", "/tmp"), "audit" ++ os:getpid() ++ "-" ++ integer_to_list(erlang:unique_integer([positive])), "log"]),
    ok = filelib:ensure_dir(File),
    Config = #{file => File, bytes => 300, files => 3},
    ok = application:set_env(lobby, audit_log, Config),
    try Test(Config) after
        ok = application:unset_env(lobby, audit_log),
        ok = file:del_dir_r(filename:dirname(File))
    end.

start(Config) ->
    {ok, Pid} = lobby_audit:start_link(Config),
    Pid.

stop(Pid) ->
    true = unlink(Pid),
    exit(Pid, kill),
    Monitor = monitor(process, Pid),
    receive {'DOWN', Monitor, process, Pid, _} -> ok end.

write(What) ->
    lobby_audit:write([{event, test}, {rooms, [<<"1">>]}, {what, What}]).

whats(Query) ->
    {ok, #{lines := Lines}} = lobby_audit:read(Query),
    [What || #{<<"what">> := What} <- Lines].

numbers() ->
    {ok, #{lines := Lines}} = lobby_audit:read(#{}),
    [N || #{<<"n">> := N} <- Lines].

%% If a file is cut off anywhere, all its complete lines can be read, and so can the next line that is written.
a_kill_in_a_line_test_() -> {timeout, 600, fun() -> audited(fun(Config = #{file := File}) ->
    Pid = start(Config#{bytes := 100000}),
    [write(What) || What <- [1, 2, 3]],
    ok = stop(Pid),
    {ok, Whole} = file:read_file(File),
    [begin
         ok = file:write_file(File, binary:part(Whole, 0, Size)),
         Lines = length(binary:matches(binary:part(Whole, 0, Size), <<"\n">>)),
         Again = start(Config#{bytes := 100000}),
         Kept = whats(#{}),
         %% The last line may lack only its line feed.
         ?assert(lists:member(Kept, [lists:seq(1, Lines), lists:seq(1, Lines + 1)])),
         ok = write(next),
         ?assertEqual(Kept ++ [<<"next">>], whats(#{})),
         ?assertEqual(lists:seq(1, length(Kept) + 1), numbers()),
         ok = stop(Again)
     end || Size <- lists:seq(0, byte_size(Whole))]
end) end}.

%% Only the owner can read a log. The mode of a private file isn't changed: that call also sets the owner, which the
%% unit's sandbox doesn't allow.
a_log_is_private_test() -> audited(fun(Config = #{file := File}) ->
    Mode = fun() ->
        {ok, #file_info{mode = M}} = file:read_file_info(File),
        M band 8#777
    end,
    Written = fun() ->
        Pid = start(Config),
        _ = erlang:trace(Pid, true, [call]),
        ok = write(1),
        ok = stop(Pid),
        receive {trace, Pid, call, {file, change_mode, _}} -> true after 100 -> false end
    end,
    1 = erlang:trace_pattern({file, change_mode, 2}, true, [global]),
    ok = file:write_file(File, ""),
    ok = file:change_mode(File, 8#644),
    ?assertEqual({true, 8#600}, {Written(), Mode()}),
    ?assertEqual({false, 8#600}, {Written(), Mode()}),
    1 = erlang:trace_pattern({file, change_mode, 2}, false, [global])
end).

%% Only the oldest files are deleted.
files_are_renamed_test() -> audited(fun(Config) ->
    Pid = start(Config),
    [write(What) || What <- lists:seq(1, 40)],
    Kept = whats(#{}),
    ?assertEqual(lists:seq(41 - length(Kept), 40), Kept),
    ?assert(length(Kept) >= 6),
    ?assertEqual(Kept, numbers()),
    ok = stop(Pid)
end).

%% If the controller ends before or after the file is renamed, no line is lost, and the numbers continue.
a_kill_while_files_are_renamed_test() -> [audited(fun(Config = #{file := File}) ->
    Pid = start(Config),
    [write(What) || What <- lists:seq(1, 6)],
    ok = stop(Pid),
    Before = whats(#{}),
    _ = [ok = file:rename(File, File ++ ".6") || IsRenamed],
    ?assertEqual(Before, whats(#{})),
    Again = start(Config),
    [write(What) || What <- [7, 8]],
    ?assertEqual(Before ++ [7, 8], whats(#{})),
    ?assertEqual(Before ++ [7, 8], numbers()),
    ok = stop(Again)
end) || IsRenamed <- [true, false]].

%% On a full disk (/dev/full), writing a line returns `ok', and leaves a gap in the numbers.
a_full_disk_test_() -> {timeout, 60, fun() -> audited(fun(Config = #{file := File}) ->
    with_counters(fun() ->
        Pid = start(Config#{bytes := 100000}),
        ok = write(1),
        ok = file:rename(File, File ++ ".1"),
        ok = file:make_symlink("/dev/full", File),
        %% The process still has the renamed file open, so it is restarted.
        ok = stop(Pid),
        Full = start(Config#{bytes := 100000}),
        ?assertEqual([ok, ok], [write(What) || What <- [2, 3]]),
        ok = file:delete(File),
        ok = write(4),
        ?assertEqual([1, 4], whats(#{})),
        ?assertEqual([1, 4], numbers()),
        ?assertEqual([{{lobby_audit_lost_total, none}, 2}], lobby_events:counts()),
        ok = stop(Full)
    end)
end) end}.

with_counters(Test) ->
    _ = application:stop(mnesia),
    ok = mnesia:start(),
    {ok, _} = lobby_store:start_link(#{store => memory, pair => none}),
    try Test() after
        ok = gen_server:stop(lobby_store),
        _ = application:stop(mnesia)
    end.

%% Lines are in the order of their numbers, and have the times that the clock showed.
a_clock_is_set_back_test() ->
    Lines = [jiffy:decode(lobby_audit_core:line(N, Time, [{event, test}]), [return_maps])
             || {N, Time} <- [{1, 5000}, {2, 1000}, {3, 1500}]],
    ?assertEqual([<<"1970-01-01T00:00:05.000Z">>, <<"1970-01-01T00:00:01.000Z">>, <<"1970-01-01T00:00:01.500Z">>],
                 [At || #{<<"at">> := At} <- Lines]),
    Selected = fun(Query) -> [N || Line = #{<<"n">> := N} <- Lines, lobby_audit_core:selects(Query, Line)] end,
    ?assertEqual([2, 3], Selected(#{from => 1000, to => 2000})),
    ?assertEqual([1], Selected(#{from => 5000})),
    ?assertEqual([3], Selected(#{'after' => 2})).

queries_test() ->
    Time = <<"2026-11-27T14:03:20.5Z">>,
    ?assertEqual(#{room => <<"100">>, from => 1795788200500, 'after' => 17},
                 lobby_audit_core:query([{<<"room">>, <<"100">>}, {<<"from">>, Time}, {<<"after">>, <<"17">>}])),
    [?assertThrow({invalid, Text}, lobby_audit_core:query(Pairs))
     || {Text, Pairs} <-
            [{<<"\"room\" is given twice">>, [{<<"room">>, <<"1">>}, {<<"room">>, <<"1">>}]},
             {<<"the query has the unknown key \"who\"">>, [{<<"who">>, <<"1">>}]},
             {<<"the query has the unknown key \"room\"">>, [{<<"room">>, true}]},
             {<<"\"from\" must be a time such as 2026-11-27T14:03:20.5Z">>, [{<<"from">>, <<"now">>}]},
             {<<"\"to\" must be a time such as 2026-11-27T14:03:20.5Z">>, [{<<"to">>, <<"2026-13-27T14:03:20Z">>}]},
             {<<"\"to\" must be a time such as 2026-11-27T14:03:20.5Z">>, [{<<"to">>, true}]},
             {<<"\"from\" is later than \"to\"">>, [{<<"to">>, Time}, {<<"from">>, <<"2026-11-27T14:03:21Z">>}]},
             {<<"\"after\" must be a line's number">>, [{<<"after">>, <<"-1">>}]},
             {<<"\"after\" must be a line's number">>, [{<<"after">>, binary:copy(<<"9">>, 19)}]}]].

seat(T, Id, Caller, Proved) ->
    #{<<"event">> => <<"seat">>, <<"termination">> => T, <<"member">> => Id, <<"caller">> => Caller, <<"proved">> => Proved}.

%% Only a proved name has no id. No name can reverse or hide text.
names_test() ->
    Turned = <<"a", 16#202E/utf8, "b\n\"\\,", 16#200B/utf8, "c">>,
    Long = binary:copy(<<16#1F600/utf8>>, 40),
    Names = iolist_to_binary(lobby_audit_core:names([seat(3, <<"y">>, Turned, false), seat(2, <<"x">>, <<"ann">>, false),
                                                     seat(1, <<"w">>, <<"ann">>, true), seat(1, <<"w">>, <<"ann">>, true),
                                                     seat(4, <<"0123abcd">>, Long, false), seat(5, <<"z">>, <<>>, false)])),
    ?assertMatch([<<"RTP/1,\"ann\"">>, <<"RTP/2,\"ann (x)\"">>, <<"RTP/3,\"a?b???,?c (y)\"">>, <<"RTP/4,", _/binary>>,
                  <<"RTP/5,\" (z)\"">>, <<>>], binary:split(Names, <<"\n">>, [global])),
    %% The gateway's program accepts these names.
    File = filename:join(os:getenv("TMPDIR", "/tmp"), "names" ++ os:getpid()),
    ok = file:write_file(File, Names),
    Said = os:cmd(os:getenv("BRIDGE") ++ " heard --names " ++ File ++ " < /dev/null"),
    ok = file:delete(File),
    ?assertEqual("standard input: line 1 isn't the title of a journal or a recording\n", Said),
    ?assertThrow({two_names, 1}, lobby_audit_core:names([seat(1, <<"w">>, <<"ann">>, true), seat(1, <<"x">>, <<"bob">>, true)])),
    ?assertThrow(too_many_names, lobby_audit_core:names([seat(T, <<"w">>, <<"ann">>, true) || T <- lists:seq(1, 1025)])).

%% Lines that the log didn't write are left out.
other_lines_test() ->
    ?assertEqual([], lobby_audit_core:entries(<<"{}\n1\n[]\n{\"n\": \"1\"}\nx\n\n{\"n\": 1">>)).

seen_test() ->
    Row = #{room => <<"1">>, role => <<"a">>, media => {{{127, 0, 0, 1}, 9}, pcmu}},
    One = lobby_audit_core:seen(Row, #{}),
    ?assertEqual(#{rooms => [<<"1">>], roles => [<<"a">>], codecs => [<<"PCMU">>]}, One),
    ?assertEqual(One, lobby_audit_core:seen(Row, One)),
    ?assertMatch(#{rooms := [<<"2">>, <<"1">>], roles := [<<"a">>]}, lobby_audit_core:seen(Row#{room := <<"2">>}, One)),
    Many = lists:foldl(fun(N, Seen) -> lobby_audit_core:seen(Row#{room := integer_to_binary(N)}, Seen) end, #{}, lists:seq(1, 100)),
    ?assertEqual(64, length(maps:get(rooms, Many))).
