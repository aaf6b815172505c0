%%% @doc SIP messages (RFC 3261), in esip's records. Decoding checks that the headers on which the controller relies are
%%% present.
-module(lobby_sip_message).

-include_lib("p1_sip/include/esip.hrl").

-export([decode/2, encode/1, refusal/1, response/4, response_target/2, peer/1, address/1, connection/1, transport/1]).
-export([header/2, header/3, headers/2, tag/2, sequence/1, body/1, branch/0, allow/0, accept/0]).
-export_type([message/0, peer/0, target/0]).

-type message() :: #sip{}.
-type peer() :: {inet:ip4_address(), inet:port_number()}.
%% An address over UDP, or a connection over TCP or TLS with its address.
-type target() :: peer() | {tcp, Connection :: pid() | {tls, pid()}, peer()}.
%% Standard methods that the controller doesn't support.
-define(OTHER_METHODS, [<<"REGISTER">>, <<"SUBSCRIBE">>, <<"NOTIFY">>, <<"PUBLISH">>, <<"REFER">>, <<"MESSAGE">>,
                        <<"INFO">>, <<"PRACK">>]).

%% @doc Decodes a message from this address. `refused': the request is malformed, but can be answered with this status.
-spec decode(binary(), Source :: target()) ->
          {ok, message()} | {refused, Status :: 400 | 505, message()} | {error, not_sip}.
decode(Text, Source) ->
    case lobby_sip_decoder:decode(Text) of
        {error, not_sip} -> {error, not_sip};
        {Status, Message} -> checked(Status, received(Message, peer(Source)))
    end.

checked(Status, Message = #sip{type = Type, body = Body}) ->
    Missing = [Key || Key <- [via, from, to, 'call-id', cseq], lists:member(header(Key, Message), [undefined, []])],
    %% Section 18.3: a body that is shorter than its Content-Length was truncated.
    IsWhole = header('content-length', Message, 0) =< byte_size(Body),
    case {Type, Status, Missing} of
        {response, ok, []} -> {ok, Message};
        {request, ok, []} when IsWhole -> {ok, Message};
        {request, _, [via | _]} -> {error, not_sip};
        {request, ok, _} -> {refused, 400, Message};
        {request, _, _} -> {refused, Status, Message};
        {response, _, _} -> {error, not_sip}
    end.

%% @doc Returns the response to a request that the controller doesn't support (section 8.2), in a call or outside. An
%% ACK is never answered, and a CANCEL isn't rejected for its contents.
-spec refusal(message()) -> none | {Status :: 400..699, Headers :: [{atom(), term()}]}.
refusal(#sip{method = Method}) when Method =:= <<"ACK">>; Method =:= <<"CANCEL">> ->
    none;
refusal(Request = #sip{method = Method, uri = #uri{scheme = Scheme, hdrs = UriHeaders}}) ->
    {allow, Known} = allow(),
    Described = lists:member(Method, [<<"INVITE">>, <<"UPDATE">>]),
    Required = headers(require, Request) -- [<<"timer">>],
    Tests = [{lists:member(Method, ?OTHER_METHODS), {405, [allow()]}},
             {not lists:member(Method, Known), {501, [allow()]}},
             {not lists:member(Scheme, [<<"sip">>, <<"sips">>]), {416, []}},
             {UriHeaders =/= [] orelse Method =:= <<"INVITE">> andalso not has_contact(Request), {400, []}},
             {Required =/= [], {420, [{unsupported, Required}]}},
             {Described andalso not is_sdp(Request), {415, [accept()]}},
             {Described andalso headers('content-encoding', Request) -- [<<"identity">>] =/= [],
              {415, [{'accept-encoding', [{<<"identity">>, []}]}]}},
             {Described andalso not accepts_sdp(Request), {406, []}}],
    case lists:keyfind(true, 1, Tests) of
        {true, Refusal} -> Refusal;
        false -> none
    end.

%% Section 8.1.1.8: an INVITE has one Contact, at which the caller can be reached in the call. A re-INVITE needn't
%% repeat it.
has_contact(Request) ->
    case headers(contact, Request) of
        [{_, #uri{scheme = Scheme}, _}] -> lists:member(Scheme, [<<"sip">>, <<"sips">>]);
        Contacts -> Contacts =:= [] andalso tag(to, Request) =/= <<>>
    end.

is_sdp(Request) ->
    Sdp = <<"application/sdp">>,
    body(Request) =:= <<>> orelse element(1, header('content-type', Request, {Sdp, []})) =:= Sdp.

accepts_sdp(Request) ->
    Fitting = [Type || {Type, _} <- headers(accept, Request),
                       lists:member(Type, [<<"application/sdp">>, <<"application/*">>, <<"*/*">>])],
    Fitting =/= [] orelse not lists:keymember(accept, 1, Request#sip.hdrs).

%% @doc Returns the Allow header of our responses.
-spec allow() -> {allow, [binary()]}.
allow() ->
    {allow, [<<"INVITE">>, <<"ACK">>, <<"BYE">>, <<"CANCEL">>, <<"OPTIONS">>, <<"UPDATE">>]}.

%% @doc Returns the Accept header of our responses.
-spec accept() -> {accept, [{binary(), []}]}.
accept() ->
    {accept, [{<<"application/sdp">>, []}]}.

%% Adds the source of a request to its Via (RFC 3261, section 18.2.1, and RFC 3581).
received(Message = #sip{type = Type, hdrs = Headers}, {Address, Port}) ->
    case {Type, header(via, Message)} of
        {request, [Top = #via{params = Params} | Rest]} ->
            From = {<<"received">>, list_to_binary(inet:ntoa(Address))},
            Known = [Param || Param = {Key, _} <- Params, Key =/= <<"received">>],
            Asked = lists:keyreplace(<<"rport">>, 1, Known, {<<"rport">>, integer_to_binary(Port)}),
            Via = {via, [Top#via{params = [From | Asked]} | Rest]},
            Message#sip{hdrs = lists:keyreplace(via, 1, Headers, Via)};
        {_, _} -> Message
    end.

%% @doc Encodes a message.
-spec encode(message()) -> binary().
encode(Message) ->
    iolist_to_binary(esip_codec:encode(Message)).

%% @doc Returns a response to a request. If the request's To has no tag, all responses except 100 get this tag.
%% Provisional and 2xx responses have the Record-Route (section 12.1.1).
-spec response(100..699, message(), Tag :: binary(), {Headers :: [{term(), term()}], Body :: binary()}) -> message().
response(Status, Request = #sip{hdrs = Headers, method = Method}, Tag, {More, Body}) ->
    %% The names of malformed headers aren't atoms.
    Keys = [via, from, 'call-id', cseq, <<"via">>, <<"from">>, <<"to">>, <<"call-id">>, <<"cseq">>],
    Copied = [Header || Header = {Key, _} <- Headers,
                        lists:member(Key, Keys) orelse (Key =:= 'record-route' andalso Status < 300)],
    To = case {header(to, Request), tag(to, Request)} of
        {{Name, Uri, Params}, <<>>} when Status > 100 -> [{to, {Name, Uri, [{<<"tag">>, Tag} | Params]}}];
        {undefined, _} -> [];
        {Known, _} -> [{to, Known}]
    end,
    #sip{type = response, status = Status, reason = esip:reason(Status), method = Method, body = Body,
         hdrs = Copied ++ To ++ More ++ [{server, <<"lobby">>}]}.

%% @doc Returns the target of a response to a request from this address (section 18.2.2, and RFC 3581, section 4).
-spec response_target(message(), Source :: target()) -> target().
response_target(_, Connection = {tcp, _, _}) ->
    Connection;
response_target(Request, {Address, Port}) ->
    [#via{params = Params, port = Sent} | _] = header(via, Request),
    case lists:keymember(<<"rport">>, 1, Params) of
        true -> {Address, Port};
        false when is_integer(Sent), Sent > 0 -> {Address, Sent};
        false -> {Address, 5060}
    end.

%% @doc Returns the address and port of a message's source or target.
-spec peer(target()) -> peer().
peer({tcp, _, Peer}) -> Peer;
peer(Peer) -> Peer.

%% @doc Returns the address of a message's source or target.
-spec address(target()) -> inet:ip4_address().
address(Target) ->
    element(1, peer(Target)).

%% @doc Returns the connection's process, or `none' over UDP.
-spec connection(target()) -> pid() | none.
connection({tcp, {tls, Pid}, _}) -> Pid;
connection({tcp, Pid, _}) -> Pid;
connection(_) -> none.

%% @doc Returns the transport's name in a Via.
-spec transport(target()) -> binary().
transport({tcp, {tls, _}, _}) -> <<"TLS">>;
transport({tcp, _, _}) -> <<"TCP">>;
transport(_) -> <<"UDP">>.

%% @doc Returns the value of the first header with this name, or `undefined' if there is none that could be decoded.
-spec header(atom(), message()) -> term().
header(Key, Message) ->
    header(Key, Message, undefined).

-spec header(atom(), message(), Default :: term()) -> term().
header(Key, #sip{hdrs = Headers}, Default) ->
    proplists:get_value(Key, Headers, Default).

%% @doc Returns the elements of all headers with this name whose values are lists.
-spec headers(atom(), message()) -> [term()].
headers(Key, #sip{hdrs = Headers}) ->
    lists:append([Value || {Name, Value} <- Headers, Name =:= Key, is_list(Value)]).

%% @doc Returns the tag of From or To, or an empty binary.
-spec tag(from | to, message()) -> binary().
tag(Key, Message) ->
    {_, _, Params} = header(Key, Message, {none, none, []}),
    proplists:get_value(<<"tag">>, Params, <<>>).

%% @doc Returns the number in CSeq.
-spec sequence(message()) -> non_neg_integer().
sequence(Message) ->
    header(cseq, Message).

%% @doc Returns the body, up to its Content-Length.
-spec body(message()) -> binary().
body(Message = #sip{body = Body}) ->
    Size = byte_size(Body),
    binary:part(Body, 0, min(Size, header('content-length', Message, Size))).

%% @doc Returns a new branch for a Via (section 8.1.1.7).
-spec branch() -> binary().
branch() ->
    <<"z9hG4bK", (binary:encode_hex(crypto:strong_rand_bytes(8)))/binary>>.
