%%% @doc The SIP dialog of an incoming call, as a value (RFC 3261, section 12).
-module(lobby_dialog).

-include_lib("p1_sip/include/esip.hrl").

-export([new/2, received/2, is_same_transaction/2, after_refusal/1, refreshed/2, request/4, ack/3, contact/1, target/2,
         key/1, caller/1]).
-export_type([dialog/0, own/0]).

%% The transport, and the controller's own address.
-type own() :: {Transport :: binary(), lobby_sip_message:peer()}.
-type party() :: {binary(), #uri{}, [{binary(), binary()}]}.
-record(dialog, {call_id :: binary(), local :: party(), remote :: party(), remote_tag :: binary(),
                 target :: #uri{}, routes :: [party()], own_sequence = 0 :: non_neg_integer(),
                 sequence :: non_neg_integer()}).
-opaque dialog() :: #dialog{}.

%% @doc Returns the dialog that our 200 to an INVITE creates, with our tag. An INVITE without a Contact has already been
%% rejected.
-spec new(lobby_sip_message:message(), Tag :: binary()) -> dialog().
new(Invite, Tag) ->
    [{_, Target = #uri{}, _} | _] = lobby_sip_message:headers(contact, Invite),
    {Name, Uri, Params} = lobby_sip_message:header(to, Invite),
    #dialog{call_id = lobby_sip_message:header('call-id', Invite),
            local = {Name, Uri, lists:keystore(<<"tag">>, 1, Params, {<<"tag">>, Tag})},
            remote = lobby_sip_message:header(from, Invite), remote_tag = lobby_sip_message:tag(from, Invite),
            target = Target, routes = lobby_sip_message:headers('record-route', Invite),
            sequence = lobby_sip_message:sequence(Invite)}.

%% @doc Compares the sequence number of a request in the dialog with the last one: higher, equal or lower (section
%% 12.2.2).
-spec received(lobby_sip_message:message(), dialog()) -> {new, dialog()} | repeated | old.
received(Request, D = #dialog{sequence = Last}) ->
    case lobby_sip_message:sequence(Request) of
        Sequence when Sequence > Last -> {new, D#dialog{sequence = Sequence}};
        Last -> repeated;
        _ -> old
    end.

%% @doc Returns whether a request belongs to the transaction of this INVITE, or of the INVITE with this response
%% (section 17.2.3): a retransmission, a CANCEL, or the ACK to a failure. If not, an INVITE with the same number and no
%% To tag arrived over another path, and gets a 482 (section 8.2.2.2). A CANCEL without a transaction gets a 481
%% (section 9.2).
-spec is_same_transaction(lobby_sip_message:message(), lobby_sip_message:message()) -> boolean().
is_same_transaction(Request, Invite) ->
    transaction(Request) =:= transaction(Invite).

%% Branches without this prefix come from clients of RFC 2543, and aren't unique.
transaction(Message) ->
    #via{host = Host, port = Port, params = Params} = hd(lobby_sip_message:header(via, Message)),
    case proplists:get_value(<<"branch">>, Params) of
        Branch = <<"z9hG4bK", _, _/binary>> -> {Branch, Host, Port};
        Branch -> {Branch, Host, Port, key(Message), lobby_sip_message:sequence(Message)}
    end.

%% @doc Returns what a failure response to our re-INVITE means for the call (sections 12.2.1.2 and 14.1): the call has
%% ended; we retry soon, because both sides sent an INVITE; or the call continues unchanged.
-spec after_refusal(Status :: 300..699) -> ended | again | goes_on.
after_refusal(Status) when Status =:= 408; Status =:= 481 -> ended;
after_refusal(491) -> again;
after_refusal(_) -> goes_on.

%% @doc Updates the caller's Contact from a re-INVITE, an UPDATE, or a response to our re-INVITE (section 12.2).
-spec refreshed(lobby_sip_message:message(), dialog()) -> dialog().
refreshed(Message, D) ->
    case lobby_sip_message:headers(contact, Message) of
        [{_, Target = #uri{}, _} | _] -> D#dialog{target = Target};
        _ -> D
    end.

%% @doc Returns our next request in the dialog, sent from this address.
-spec request(Method :: binary(), {Headers :: [{term(), term()}], Body :: binary()}, own(), dialog()) ->
          {lobby_sip_message:message(), dialog()}.
request(Method, Content, Own, D = #dialog{own_sequence = Sequence}) ->
    {message(Method, Sequence + 1, Content, Own, D), D#dialog{own_sequence = Sequence + 1}}.

%% @doc Returns the ACK to a 2xx response to our INVITE (section 13.2.2.4).
-spec ack(lobby_sip_message:message(), own(), dialog()) -> lobby_sip_message:message().
ack(Response, Own, D) ->
    message(<<"ACK">>, lobby_sip_message:sequence(Response), {[], <<>>}, Own, D).

message(Method, Sequence, {Headers, Body}, Own = {Transport, {Address, Port}}, D) ->
    #dialog{call_id = CallId, local = Local, remote = Remote} = D,
    {Uri, Routes} = route(D),
    Via = #via{transport = Transport, host = list_to_binary(inet:ntoa(Address)), port = Port,
               params = [{<<"branch">>, lobby_sip_message:branch()}, {<<"rport">>, <<>>}]},
    #sip{type = request, method = Method, uri = Uri, body = Body,
         hdrs = [{via, [Via]}, {'max-forwards', 70}, {from, Local}, {to, Remote}, {'call-id', CallId}, {cseq, Sequence},
                 contact(Own)] ++ [{route, Routes} || Routes =/= []] ++ Headers}.

%% @doc Returns our Contact header, at which the caller reaches us.
-spec contact(own()) -> {contact, [party()]}.
contact({Transport, {Address, Port}}) ->
    Params = [{<<"transport">>, string:lowercase(Transport)} || Transport =/= <<"UDP">>],
    Uri = #uri{user = <<"lobby">>, host = list_to_binary(inet:ntoa(Address)), port = Port, params = Params},
    {contact, [{<<>>, Uri, []}]}.

%% Returns the request's URI and routes. A first route without lr becomes the URI (section 12.2.1.1).
route(#dialog{target = Target, routes = []}) ->
    {Target, []};
route(#dialog{target = Target, routes = Routes = [{_, First, _} | Rest]}) ->
    case lists:keymember(<<"lr">>, 1, First#uri.params) of
        true -> {Target, Routes};
        false -> {First, Rest ++ [{<<>>, Target, []}]}
    end.

%% @doc Returns the target of our requests: the first route or, without routes, the caller's Contact. If its host isn't
%% an IPv4 address, the target is the source of the caller's last request. Over TCP, it is the caller's connection.
-spec target(dialog(), Source :: lobby_sip_message:target()) -> lobby_sip_message:target().
target(_, Connection = {tcp, _, _}) ->
    Connection;
target(#dialog{routes = Routes, target = Target}, Source) ->
    #uri{host = Host, port = Port} = hd([First || {_, First, _} <- Routes] ++ [Target]),
    case inet:parse_ipv4strict_address(binary_to_list(Host)) of
        {ok, Address} when is_integer(Port), Port > 0 -> {Address, Port};
        {ok, Address} -> {Address, 5060};
        {error, _} -> Source
    end.

%% @doc Returns the key that the caller's requests in a dialog share: the Call-ID and the caller's tag.
-spec key(dialog() | lobby_sip_message:message()) -> {CallId :: binary(), Tag :: binary()}.
key(#dialog{call_id = CallId, remote_tag = Tag}) -> {CallId, Tag};
key(Request) -> {lobby_sip_message:header('call-id', Request), lobby_sip_message:tag(from, Request)}.

%% @doc Returns the caller's display name or, without one, the caller's URI.
-spec caller(dialog()) -> binary().
caller(#dialog{remote = {<<>>, Uri, _}}) -> iolist_to_binary(esip_codec:encode_uri(Uri));
caller(#dialog{remote = {Name, _, _}}) -> binary:replace(Name, <<"\"">>, <<>>, [global]).
