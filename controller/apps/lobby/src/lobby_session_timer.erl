%%% @doc Session timers (RFC 4028): how long a session lasts without a refresh, and which side refreshes it. Also, how
%%% long an INVITE is valid. The decoder limits the times in messages to a day.
-module(lobby_session_timer).

-export([asked/2, answer/1, request/1, timeout/1, invitation/1]).
-export_type([timer/0]).

%% `none': the caller hasn't asked for a session timer, so the session has no limit.
-type timer() :: none | {Seconds :: pos_integer(), ours | theirs}.
%% Seconds for which an INVITE is valid by default (RFC 3261, section 13.3.1).
-define(INVITATION, 180).

%% @doc Returns the timer that a request asks for. `too_short': the request must be answered with 422 and these headers.
%% A proxy may ask on behalf of a phone that doesn't support the extension. Such a request isn't rejected, and if it
%% names no refresher, we refresh the session (section 9).
-spec asked(lobby_sip_message:message(), Shortest :: pos_integer()) -> timer() | {too_short, [{atom(), term()}]}.
asked(Request, Shortest) ->
    Knows = lists:member(<<"timer">>, lobby_sip_message:headers(supported, Request)),
    case lobby_sip_message:header('session-expires', Request) of
        undefined -> none;
        {Seconds, _} when Seconds < Shortest, Knows -> {too_short, [{'min-se', {Shortest, []}}]};
        {Seconds, Params} ->
            Default = case Knows of true -> <<"uac">>; false -> <<"uas">> end,
            Named = proplists:get_value(<<"refresher">>, Params, Default),
            {max(Shortest, Seconds), case Named of <<"uas">> -> ours; _ -> theirs end}
    end.

%% @doc Returns the timer's headers for our 200.
-spec answer(timer()) -> [{atom(), term()}].
answer(none) -> [];
answer({Seconds, theirs}) -> [{require, [<<"timer">>]}, session_expires(Seconds, <<"uac">>)];
answer({Seconds, ours}) -> [session_expires(Seconds, <<"uas">>)].

%% @doc Returns the timer's headers for our own request, in which the roles are reversed.
-spec request(timer()) -> [{atom(), term()}].
request(none) -> [];
request({Seconds, Who}) ->
    [{supported, [<<"timer">>]}, session_expires(Seconds, case Who of theirs -> <<"uas">>; ours -> <<"uac">> end)].

session_expires(Seconds, Refresher) ->
    {'session-expires', {Seconds, [{<<"refresher">>, Refresher}]}}.

%% @doc Returns the timeout (section 10): a refresh is due at half of the session's time. Without the caller's refresh,
%% the session expires 32 s, or a third of its time if that is less, before its end.
-spec timeout(timer()) -> {Milliseconds :: pos_integer() | infinity, none | refresh | expired}.
timeout(none) -> {infinity, none};
timeout({Seconds, ours}) -> {500 * Seconds, refresh};
timeout({Seconds, theirs}) -> {1000 * (Seconds - min(32, Seconds div 3)), expired}.

%% @doc Returns the milliseconds for which the caller waits for a response to this INVITE: at most three minutes.
-spec invitation(lobby_sip_message:message()) -> non_neg_integer().
invitation(Invite) ->
    1000 * min(?INVITATION, lobby_sip_message:header(expires, Invite, ?INVITATION)).
