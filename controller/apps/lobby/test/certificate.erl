%% Creates certificates for tests, as PEM files.
-module(certificate).

-include_lib("public_key/include/public_key.hrl").

-export([new/2, name/1]).

%% Writes a self-signed certificate and its key, and replaces earlier ones.
new(Name, Folder) ->
    Key = public_key:generate_key({namedCurve, secp256r1}),
    #{cert := Der} = public_key:pkix_test_root_cert(Name, [{key, Key}]),
    Files = {Certificate, KeyFile} = {filename:join(Folder, "certificate.pem"), filename:join(Folder, "key.pem")},
    ok = file:write_file(Certificate, public_key:pem_encode([{'Certificate', Der, not_encrypted}])),
    ok = file:write_file(KeyFile, public_key:pem_encode([public_key:pem_entry_encode('ECPrivateKey', Key)])),
    Files.

%% Returns the common name in a certificate.
name(Der) ->
    #'OTPCertificate'{tbsCertificate = #'OTPTBSCertificate'{subject = {rdnSequence, Names}}} = public_key:pkix_decode_cert(Der, otp),
    [Name] = [case Text of {_, T} -> unicode:characters_to_list(T); T -> T end || [#'AttributeTypeAndValue'{type = ?'id-at-commonName', value = Text}] <- Names],
    Name.
