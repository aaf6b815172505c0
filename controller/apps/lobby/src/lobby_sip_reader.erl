%%% @doc Reads SIP messages, and passes those of a call to its process. A request that neither belongs to a call nor
%%% begins one is answered here without keeping state (RFC 3261, section 8.2.7), unless it is an ACK. So a flood of such
%%% requests takes no memory. Several processes read, so that a sender whose messages take a long time to read doesn't
%%% block all others. The messages of one sender stay in order.
-module(lobby_sip_reader).

-include_lib("p1_sip/include/esip.hrl").

-export([start/0, give/3, read/2]).
-export_type([readers/0]).

%% The readers' processes, and the number of messages that wait for each of them.
-opaque readers() :: {tuple(), counters:counters_ref()}.
%% The maximum number of messages that wait for a reader, or for a call's process.
-define(MAX_WAITING, 100).

%% @doc Starts a reader for each processor. The readers end with the calling process.
-spec start() -> readers().
start() ->
    Count = erlang:system_info(schedulers_online),
    Waiting = counters:new(Count, []),
    {list_to_tuple([proc_lib:spawn_link(fun() -> run(N, Waiting) end) || N <- lists:seq(1, Count)]), Waiting}.

run(N, Waiting) ->
    receive {read, Message, Source} -> ok = read(Message, Source) end,
    ok = counters:sub(Waiting, N, 1),
    run(N, Waiting).

%% @doc Passes a message to the reader for its source. If too many messages are waiting, the message is dropped, and its
%% sender retransmits it.
-spec give(binary(), lobby_sip_message:target(), readers()) -> ok.
give(Message, Source, {Pids, Waiting}) ->
    N = 1 + erlang:phash2(Source, tuple_size(Pids)),
    case counters:get(Waiting, N) < ?MAX_WAITING of
        true ->
            ok = counters:add(Waiting, N, 1),
            _ = element(N, Pids) ! {read, Message, Source},
            ok;
        false -> ok
    end.

%% @doc Reads and handles an admitted message.
-spec read(binary(), lobby_sip_message:target()) -> ok.
read(Message, Source) ->
    handle(lobby_sip_message:decode(Message, Source), Source).

handle({ok, Request = #sip{type = request}}, Source) ->
    case lobby_sip_message:refusal(Request) of
        none -> request(Request, Source);
        {Status, Headers} -> reply(Status, Headers, Request, Source)
    end;
%% In a response to our request, the caller's tag is in To, and our tag in From.
handle({ok, Response}, Source) ->
    Key = {lobby_sip_message:header('call-id', Response), lobby_sip_message:tag(to, Response)},
    case lobby_sip_message:tag(from, Response) =:= lobby_sip:tag(Key) of
        true -> in_call(Key, Response, Source);
        false -> ok
    end;
handle({refused, Status, Request}, Source) ->
    reply(Status, [], Request, Source);
handle({error, not_sip}, _) ->
    ok.

%% Handles a request. The two tags and the Call-ID identify its dialog (RFC 3261, section 12). A request without a To
%% tag belongs to no dialog, or it is an initial INVITE or the CANCEL of one.
request(Request = #sip{method = Method}, Source) ->
    Own = lobby_sip:own_tag(Request),
    case {lobby_sip_message:tag(to, Request), Method} of
        {Own, _} -> in_call(lobby_dialog:key(Request), Request, Source);
        {<<>>, _} when Method =:= <<"INVITE">>; Method =:= <<"CANCEL">> ->
            in_call(lobby_dialog:key(Request), Request, Source);
        {<<>>, <<"OPTIONS">>} ->
            reply(200, [lobby_sip_message:allow(), lobby_sip_message:accept()], Request, Source);
        {_, _} -> reply(481, [], Request, Source)
    end.

in_call(Key, Message = #sip{type = Type}, Source) ->
    case {lobby_call:find(Key), Type} of
        {{ok, Pid}, _} -> forward(Pid, Message, Source);
        {error, request} -> unknown(Message, Source);
        {error, response} -> ok
    end.

%% Passes a message to a call's process. Over UDP, the sender of a message that is dropped retransmits it.
forward(Pid, Message, Source) ->
    _ = [Pid ! {sip, Message, Source}
         || {_, Waiting} <- [process_info(Pid, message_queue_len)], Waiting < ?MAX_WAITING],
    lobby_tcp:in_call(lobby_sip_message:connection(Source), Pid).

%% Begins a call for an initial INVITE, and answers other requests that belong to no call. A BYE with our tag belongs to
%% a call that has ended: our response to the first BYE was lost (section 17.2.2).
unknown(Request = #sip{method = Method}, Source) ->
    case {lobby_sip_message:tag(to, Request), Method} of
        {<<>>, <<"INVITE">>} -> invite(Request, Source);
        {<<_, _/binary>>, <<"BYE">>} -> reply(200, [], Request, Source);
        {_, _} -> reply(481, [], Request, Source)
    end.

%% Begins a call. The cheapest check comes first.
invite(Request = #sip{uri = #uri{user = Room}}, Source) ->
    case lobby_room:is_name(Room) andalso lobby_sip:invite(Request, Source) of
        false -> reply(404, [], Request, Source);
        {Status, Headers} -> reply(Status, Headers, Request, Source);
        ok -> ok
    end.

%% Sends a response, except to an ACK (section 17).
reply(_, _, #sip{method = <<"ACK">>}, _) ->
    ok;
reply(Status, Headers, Request, Source) ->
    _ = lobby_sip:answer(Status, {Headers, <<>>}, Request, Source),
    ok.
