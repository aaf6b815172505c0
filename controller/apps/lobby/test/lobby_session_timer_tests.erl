-module(lobby_session_timer_tests).

-include_lib("eunit/include/eunit.hrl").
-include_lib("p1_sip/include/esip.hrl").

request(Lines) ->
    {ok, Request} = lobby_sip_message:decode(iolist_to_binary(["INVITE sip:a@b SIP/2.0\r\nVia: SIP/2.0/UDP h;branch=z9hG4bK1\r\nFrom: <sip:a@b>;tag=1\r\n"
        "To: <sip:a@b>\r\nCall-ID: c\r\nCSeq: 7 INVITE\r\n", [[Line, "\r\n"] || Line <- Lines], "\r\n"]), {{127, 0, 0, 1}, 5060}),
    Request.

asked(Lines) -> lobby_session_timer:asked(request(Lines), 90).

%% See RFC 4028, section 9.
asked_test() ->
    Timer = "Supported: 100rel, Timer",
    [?assertEqual({Lines, Is}, {Lines, asked(Lines)})
     || {Lines, Is} <- [{[], none}, {[Timer], none}, {[Timer, "Session-Expires: 1800"], {1800, theirs}}, {[Timer, "x: 1800;refresher=uac"], {1800, theirs}},
                        {[Timer, "Session-Expires: 1800;refresher=uas"], {1800, ours}}, {[Timer, "Session-Expires: 89"], {too_short, [{'min-se', {90, []}}]}},
                        %% This phone doesn't support the extension, and a proxy asks on its behalf.
                        {["Session-Expires: 1800"], {1800, ours}}, {["Session-Expires: 60"], {90, ours}},
                        %% A proxy wouldn't name a refresher.
                        {["Session-Expires: 1800;refresher=uac"], {1800, theirs}}]].

%% A session lasts at most a day, because Erlang's timers can't be longer than 49 days.
what_is_asked_for_is_bounded_test() ->
    [begin
         Asked = asked(["Supported: timer", ["Session-Expires: ", Seconds, ";refresher=", Refresher], ["Min-SE: ", Seconds]]),
         ?assertMatch({86400, _}, Asked),
         {Ms, _} = lobby_session_timer:timeout(Asked),
         ?assert(Ms =< 86400000)
     end || Seconds <- ["86400", "86401", "99999999999", lists:duplicate(80, $9)], Refresher <- ["uac", "uas"]],
    ?assertEqual([180000, 0, 5000, 180000], [lobby_session_timer:invitation(request(Lines))
                                             || Lines <- [[], ["Expires: 0"], ["Expires: 5"], ["Expires: 99999999999999999999"]]]).

%% The Require header names only an extension that the caller supports.
answers_test() ->
    ?assertEqual([{require, [<<"timer">>]}, {'session-expires', {90, [{<<"refresher">>, <<"uac">>}]}}], lobby_session_timer:answer({90, theirs})),
    ?assertEqual([{'session-expires', {90, [{<<"refresher">>, <<"uas">>}]}}], lobby_session_timer:answer({90, ours})),
    ?assertEqual([{supported, [<<"timer">>]}, {'session-expires', {90, [{<<"refresher">>, <<"uas">>}]}}], lobby_session_timer:request({90, theirs})),
    ?assertEqual([{supported, [<<"timer">>]}, {'session-expires', {90, [{<<"refresher">>, <<"uac">>}]}}], lobby_session_timer:request({90, ours})),
    ?assertEqual([[], []], [lobby_session_timer:answer(none), lobby_session_timer:request(none)]).

%% See section 10.
timeouts_test() ->
    ?assertEqual([{infinity, none}, {45000, refresh}, {60000, expired}, {1768000, expired}],
                 [lobby_session_timer:timeout(Timer) || Timer <- [none, {90, ours}, {90, theirs}, {1800, theirs}]]).
