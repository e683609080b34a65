/* Bluetooth LE legacy pairing (Core Specification Vol 3 Part H) on numbers and octet strings: the machine of
 * a quay terminal (central, initiator) and that of a scale's radio head (peripheral, responder). Link with
 * liblegacy_pairing.a, which `rt lib` in crates/legacy_pairing writes to its out/ (x86-64-v2; of the C
 * library it needs memcpy, memmove and memset at most).
 *
 * A machine is one end of one pairing. Its whole state is a record of octets, which the host keeps.
 *
 * 1. legacy_pairing_new writes the record. The terminal's host sends the Pairing Request itself.
 * 2. Each packet from the peer and each event is an input. legacy_pairing_step takes the record, the input
 *    and the host's answers so far, and lists calls: packets to send, events to tell, questions, draws.
 *    WANTS: the last call on the list is new and has no answer yet; those before it have theirs. Do what it
 *           says, append the answer to the answers, and run the step again with the same input.
 *    DONE:  the record is the machine after the step. No call is new, and the answers are of no further use.
 * 3. legacy_pairing_result says how the machine stands: pending, success or failed. A machine that has ended
 *    needs no more inputs: most of them would make it fail. A new pairing needs a new machine. There is no
 *    timer: a machine whose peer has gone stays pending, and ending it is the host's.
 *    A head stays pending too, on an encrypted link, where the ends do not both bond and the request names
 *    the initiator's KEYS_IDENTITY: it waits for a key that nobody sends.
 *
 * Octet strings run least significant octet first, as on the air. Each is a pointer and a length. In these
 * comments the names of constants stand without LEGACY_PAIRING_.
 *
 * What nothing checks, and the caller has to keep:
 *   - No pointer is null, also where the length is 0. Every pointer is good for its length or its type.
 *   - What a function writes overlaps nothing else that it is given.
 *   - The record is the one that the last step wrote. A record of an earlier step cannot be told from it.
 *   - The role is the one that the machine was made for. Of another one only this is noticed: a fresh
 *     terminal's record with HEAD.
 *   - A record holds keys: the temporary key and the nonce while they are needed, then those of the bond. So
 *     do a step's list and answers. Nothing clears them: do so when they are no longer needed.
 *
 * No function keeps anything between calls, allocates, or calls back. What each gives is proved, for every
 * input that keeps to the above: the contracts stand in crates/legacy_pairing/src/lib.rt, with the
 * definitions that they cite. `checks/numbers` holds the numbers of this file to those definitions. */

#ifndef LEGACY_PAIRING_H
#define LEGACY_PAIRING_H

#include <stddef.h>
#include <stdint.h>

#ifdef __cplusplus
extern "C" {
#endif

/* ==== Version */

/* The version of this file: 0x00, then major, minor and patch, an octet each. */
#define LEGACY_PAIRING_VERSION 0x000200

/* The version of the library that is linked. Where it is not VERSION, the numbers and sizes below may be
 * those of another library: do not go on. */
uint32_t legacy_pairing_version(void);

/* ==== Roles */

#define LEGACY_PAIRING_TERMINAL 0 /* central, initiator */
#define LEGACY_PAIRING_HEAD 1     /* peripheral, responder */

/* ==== Sizes, in octets. Every name that ends in _SIZE is one, and no other is */

#define LEGACY_PAIRING_MACHINE_SIZE 161    /* a machine's record */
#define LEGACY_PAIRING_CALL_LIST_SIZE 164  /* the calls of the longest step; a list may be longer */
/* Room for the answers to any step. Not proved: counted over the steps of both roles. The steps of
 * bindings/against_the_rust reach it and do not pass it. */
#define LEGACY_PAIRING_ANSWERS_SIZE 67
#define LEGACY_PAIRING_ADDRESS_SIZE 7      /* an address with its kind */
#define LEGACY_PAIRING_FEATURES_SIZE 6     /* features: the payload of a Pairing Request or Response */
#define LEGACY_PAIRING_PAIRING_PDU_SIZE 7  /* a whole Pairing Request or Response: its code, then features */
#define LEGACY_PAIRING_VALUE_SIZE 16       /* a key, an IRK, a nonce, a confirm value, an out-of-band value */
#define LEGACY_PAIRING_PASS_KEY_SIZE 4     /* a passkey, as a number */
#define LEGACY_PAIRING_EDIV_SIZE 2
#define LEGACY_PAIRING_RAND_SIZE 8
#define LEGACY_PAIRING_BOND_SIZE 51

/* ==== How a function comes out
 * Each function but legacy_pairing_version returns one of these. A refusal writes nothing, but for the two
 * counts of a step that is refused by 1, 2 or 3: these are then 0. */

#define LEGACY_PAIRING_DONE 0    /* all is done */
#define LEGACY_PAIRING_WANTS 255 /* step alone: the last call on the list has no answer yet. No refusal */

/* Refusals. Each function names those that it has, in the order in which it looks for them. */
#define LEGACY_PAIRING_E_LIST_TOO_SHORT 1    /* the call list has less than CALL_LIST_SIZE */
#define LEGACY_PAIRING_E_NO_COMMAND 2        /* the command code is 0, or above COMMAND_MAX */
#define LEGACY_PAIRING_E_BAD_ANSWER 3        /* an answer reached: other kind, cut body or forbidden value */
#define LEGACY_PAIRING_E_FEATURES_CUT 4      /* features of less than FEATURES_SIZE */
#define LEGACY_PAIRING_E_BAD_FEATURES 5      /* features with an I/O, an OOB or a key size that is none */
#define LEGACY_PAIRING_E_BAD_CALL_LIST 6     /* a call list: a kind is unknown, or a body is cut */
#define LEGACY_PAIRING_E_MACHINE_LENGTH 20   /* a record of another length than MACHINE_SIZE */
#define LEGACY_PAIRING_E_MACHINE_PHASE 21    /* a record that has no phase */
#define LEGACY_PAIRING_E_MACHINE_FEATURES 22 /* a record whose features have an I/O or an OOB that is none */
#define LEGACY_PAIRING_E_MACHINE_METHOD 23   /* a record that has no method */
#define LEGACY_PAIRING_E_MACHINE_BOND 24     /* a record with a yes/no octet of its bond that is none */
#define LEGACY_PAIRING_E_NOT_CANONICAL 25    /* a record that no machine of this role has: see below */
#define LEGACY_PAIRING_E_NO_ROLE 26          /* the role is neither TERMINAL nor HEAD */
#define LEGACY_PAIRING_E_NO_INPUT 27         /* no input has this number */
#define LEGACY_PAIRING_E_BAD_EVENT 28        /* an event's data: another length, or a forbidden value */
#define LEGACY_PAIRING_E_WRONG_LENGTH 29     /* an octet string of another length than it must have */
#define LEGACY_PAIRING_E_NO_CALL 30          /* the list has no call at this index */

/* E_NOT_CANONICAL: the record reads, but the library would write another for the machine that was read. An
 * octet is not zero in a request, response, temporary key, nonce, confirm value or key that the phase does
 * not hold, in a detail of a phase or error that has none, or in a bond where none is present. What
 * legacy_pairing_new or a step has written is never refused so in its own role: its octets were changed
 * since, or a fresh terminal's record is given with the head's role. */

/* ==== Making a machine */

/* An address, ADDRESS_SIZE octets: the kind, then the six octets. */
#define LEGACY_PAIRING_ADDRESS_KIND_OFFSET 0
#define LEGACY_PAIRING_ADDRESS_OCTETS_OFFSET 1

/* Kinds of address. Every octet but PUBLIC is kept as it is, and counts as RANDOM where a kind is sent or
 * enters a confirm value. */
#define LEGACY_PAIRING_ADDRESS_PUBLIC 0
#define LEGACY_PAIRING_ADDRESS_RANDOM 1

/* Features, FEATURES_SIZE octets, one for each field (Part H 3.5.1). */
#define LEGACY_PAIRING_FEATURES_IO_OFFSET 0             /* I/O capabilities, IO_... */
#define LEGACY_PAIRING_FEATURES_OOB_OFFSET 1            /* YES or NO: the peer's out-of-band data are there */
#define LEGACY_PAIRING_FEATURES_AUTH_REQ_OFFSET 2       /* AuthReq, AUTH_... added up */
#define LEGACY_PAIRING_FEATURES_KEY_SIZE_OFFSET 3       /* the largest encryption key size, in octets */
#define LEGACY_PAIRING_FEATURES_INITIATOR_KEYS_OFFSET 4 /* its keys, KEYS_... added up */
#define LEGACY_PAIRING_FEATURES_RESPONDER_KEYS_OFFSET 5 /* its keys, likewise */

#define LEGACY_PAIRING_IO_DISPLAY_ONLY 0
#define LEGACY_PAIRING_IO_DISPLAY_YES_NO 1
#define LEGACY_PAIRING_IO_KEYBOARD_ONLY 2
#define LEGACY_PAIRING_IO_NO_INPUT_NO_OUTPUT 3
#define LEGACY_PAIRING_IO_KEYBOARD_DISPLAY 4

#define LEGACY_PAIRING_AUTH_BONDING_MASK 0x03 /* two bits, of which AUTH_BONDING alone asks for a bond */
#define LEGACY_PAIRING_AUTH_BONDING 0x01
#define LEGACY_PAIRING_AUTH_MITM 0x04
/* No machine looks at the next three. A terminal's host that sets AUTH_SECURE_CONNECTIONS gives the response
 * to the machine only where the response has not got it: where both have it the standard has Secure
 * Connections, which this library does not do. 0 is safe. */
#define LEGACY_PAIRING_AUTH_SECURE_CONNECTIONS 0x08
#define LEGACY_PAIRING_AUTH_KEYPRESS 0x10
#define LEGACY_PAIRING_AUTH_CT2 0x20

#define LEGACY_PAIRING_LEAST_KEY_SIZE 7
#define LEGACY_PAIRING_LARGEST_KEY_SIZE 16

#define LEGACY_PAIRING_KEYS_ENCRYPTION 0x01
#define LEGACY_PAIRING_KEYS_IDENTITY 0x02
#define LEGACY_PAIRING_KEYS_SIGNING 0x04 /* named or not: no machine sends or takes this key */
#define LEGACY_PAIRING_KEYS_LINK 0x08    /* likewise */

/* Writes the record of a machine that begins a pairing.
 *   - The terminal has sent a Pairing Request with these features, and waits for the response.
 *   - The head waits for a request, and makes its response of these features. I/O capabilities and key size
 *     are these. OOB is YES also where CALL_ASK_OOB_AVAILABLE is answered so. AuthReq is the bonding flag by
 *     CALL_ASK_BONDING_FLAG, with AUTH_MITM unless the I/O is IO_NO_INPUT_NO_OUTPUT; that of these features
 *     is not looked at. Keys are these, with KEYS_ENCRYPTION and KEYS_IDENTITY where the request names them;
 *     the responder's KEYS_IDENTITY, where these do not have it, only if CALL_ASK_LOCAL_IRK gives an IRK.
 *     Name none here that a request may lack: 0 in both fields is safe.
 * Addresses are those that the link has. They have ADDRESS_SIZE octets, the machine MACHINE_SIZE, features at
 * least FEATURES_SIZE, of which no more are read.
 * Refused: E_NO_ROLE; E_WRONG_LENGTH (an address); E_FEATURES_CUT; E_BAD_FEATURES; E_WRONG_LENGTH (the
 * machine). */
uint8_t legacy_pairing_new(uint8_t role,
                           const uint8_t *local_address, size_t local_address_len,
                           const uint8_t *peer_address, size_t peer_address_len,
                           const uint8_t *features, size_t features_len,
                           uint8_t *machine, size_t machine_len);

/* ==== Inputs of a step
 * A packet from the peer: its command code, with the payload that follows the code, of any length. A packet
 * that is wrong is not refused: the machine fails. A code of 0 or above COMMAND_MAX is refused: ignore such a
 * packet. Or an event: its number, with its data in the payload's place.
 *
 * Order. Packets are given in the order in which they came. Two events go before them:
 *   - After CALL_ENABLE_ENCRYPTION no packet is given before INPUT_LINK_ENCRYPTED_RESULT: keep it until then.
 *   - A head that was asked for the out-of-band value (CALL_EVENT_OOB_REQUEST) gets it before the terminal's
 *     confirm value: keep that until then.
 * Otherwise the machine fails with FAILURE_INVALID_STATE. A confirm value may come while a passkey is typed. */

#define LEGACY_PAIRING_COMMAND_PAIRING_REQUEST 0x01 /* no call sends it: the terminal's host does, to begin */
/* No call sends it. Where CALL_EVENT_PAIRING_FAILED comes of anything but the peer's own Pairing Failed, the
 * host sends it, so that the peer does not wait. Its payload is one octet, a reason: the detail where the kind
 * is FAILURE_SECURITY, else REASON_UNSPECIFIED_REASON. */
#define LEGACY_PAIRING_COMMAND_PAIRING_FAILED 0x05
#define LEGACY_PAIRING_COMMAND_MAX 0x0E

/* The link was to be encrypted, by CALL_ENABLE_ENCRYPTION or, at a head that has had no request, by an old
 * bond: YES it is, NO that failed. Elsewhere the machine fails. */
#define LEGACY_PAIRING_INPUT_LINK_ENCRYPTED_RESULT 0x100
#define LEGACY_PAIRING_INPUT_LINK_ENCRYPTED_RESULT_SIZE 1
/* The user confirms: no data. No machine asks for it, and each stays as it is. */
#define LEGACY_PAIRING_INPUT_PASS_KEY_CONFIRM 0x101
#define LEGACY_PAIRING_INPUT_PASS_KEY_CONFIRM_SIZE 0
/* The user gives up typing: no data. */
#define LEGACY_PAIRING_INPUT_PASS_KEY_CANCEL 0x102
#define LEGACY_PAIRING_INPUT_PASS_KEY_CANCEL_SIZE 0
/* The user has typed a passkey: a number of four octets, of any value. */
#define LEGACY_PAIRING_INPUT_PASS_KEY_INPUT 0x103
#define LEGACY_PAIRING_INPUT_PASS_KEY_INPUT_SIZE 4
/* The out-of-band value has come, the same at both ends: sixteen octets. */
#define LEGACY_PAIRING_INPUT_OOB_DATA_RECEIVED 0x104
#define LEGACY_PAIRING_INPUT_OOB_DATA_RECEIVED_SIZE 16

/* ==== A step */

/* One step of a machine on an input. `answers` are the host's answers to the calls of this step so far, one
 * after another in the order of the calls: a call's kind, then the body of the answer. `list` gets the calls:
 * a kind, then the body of the call, each.
 *   DONE   the step has ended, and the record is the machine after it. The first `*written` octets of the
 *          list are its calls. The first `*read` octets of the answers were read; what is left over was not.
 *   WANTS  the last call on the list has no answer. The record is as it was. The counts are as above.
 * Beyond `*written` octets the list is as it was.
 * Refused: E_NO_ROLE; E_MACHINE_LENGTH, E_MACHINE_PHASE, E_MACHINE_FEATURES, E_MACHINE_METHOD,
 * E_MACHINE_BOND, E_NOT_CANONICAL; E_NO_INPUT; E_BAD_EVENT; E_LIST_TOO_SHORT; E_NO_COMMAND; E_BAD_ANSWER. A
 * refused step leaves record and list as they were: it can be run again with what was wrong put right. */
uint8_t legacy_pairing_step(uint8_t role,
                            uint8_t *machine, size_t machine_len,
                            uint16_t input,
                            const uint8_t *payload, size_t payload_len,
                            const uint8_t *answers, size_t answers_len,
                            uint8_t *list, size_t list_len,
                            size_t *read, size_t *written);

/* ==== Calls
 * CALL_X is the kind of a call, one octet; on the list CALL_X_BODY_SIZE octets follow it. Its answer is the
 * same kind, with CALL_X_ANSWER_SIZE octets after it: always so many, also where they are not looked at. */

/* A verdict: how the host fared with a call. Any octet but these two is an error of the host's own, which
 * becomes the detail of a failure. After a verdict other than VERDICT_DONE the rest of the answer is not
 * looked at. */
#define LEGACY_PAIRING_VERDICT_DONE 0
#define LEGACY_PAIRING_VERDICT_OUT_OF_MEMORY 1
#define LEGACY_PAIRING_VERDICT_OFFSET 0 /* the verdict comes first in an answer that has one */
#define LEGACY_PAIRING_VERDICT_SIZE 1

/* A yes/no octet, in answers and bodies. Any other octet is forbidden in an answer. */
#define LEGACY_PAIRING_NO 0
#define LEGACY_PAIRING_YES 1

/* Security levels, in bodies and in a bond. Another octet is the host's, and is passed on. */
#define LEGACY_PAIRING_LEVEL_NONE 0          /* not encrypted */
#define LEGACY_PAIRING_LEVEL_ENCRYPTED 1     /* Just Works */
#define LEGACY_PAIRING_LEVEL_AUTHENTICATED 2 /* a passkey or out-of-band data */

/* -- Packets: send the body to the peer, as the payload of a packet whose code is the kind. Answer: a
 *    verdict. */

/* Body: the features of the response. The head's. */
#define LEGACY_PAIRING_CALL_SEND_PAIRING_RESPONSE 0x02
#define LEGACY_PAIRING_CALL_SEND_PAIRING_RESPONSE_BODY_SIZE 6
#define LEGACY_PAIRING_CALL_SEND_PAIRING_RESPONSE_ANSWER_SIZE 1
/* Body: the confirm value. */
#define LEGACY_PAIRING_CALL_SEND_PAIRING_CONFIRM 0x03
#define LEGACY_PAIRING_CALL_SEND_PAIRING_CONFIRM_BODY_SIZE 16
#define LEGACY_PAIRING_CALL_SEND_PAIRING_CONFIRM_ANSWER_SIZE 1
/* Body: the nonce. */
#define LEGACY_PAIRING_CALL_SEND_PAIRING_RANDOM 0x04
#define LEGACY_PAIRING_CALL_SEND_PAIRING_RANDOM_BODY_SIZE 16
#define LEGACY_PAIRING_CALL_SEND_PAIRING_RANDOM_ANSWER_SIZE 1
/* Body: the LTK. */
#define LEGACY_PAIRING_CALL_SEND_ENCRYPTION_INFORMATION 0x06
#define LEGACY_PAIRING_CALL_SEND_ENCRYPTION_INFORMATION_BODY_SIZE 16
#define LEGACY_PAIRING_CALL_SEND_ENCRYPTION_INFORMATION_ANSWER_SIZE 1
/* Body: EDIV 2, Rand 8. */
#define LEGACY_PAIRING_CALL_SEND_CENTRAL_IDENTIFICATION 0x07
#define LEGACY_PAIRING_CALL_SEND_CENTRAL_IDENTIFICATION_BODY_SIZE 10
#define LEGACY_PAIRING_CALL_SEND_CENTRAL_IDENTIFICATION_ANSWER_SIZE 1
/* Body: the IRK. */
#define LEGACY_PAIRING_CALL_SEND_IDENTITY_INFORMATION 0x08
#define LEGACY_PAIRING_CALL_SEND_IDENTITY_INFORMATION_BODY_SIZE 16
#define LEGACY_PAIRING_CALL_SEND_IDENTITY_INFORMATION_ANSWER_SIZE 1
/* Body: an address, of kind PUBLIC or RANDOM. */
#define LEGACY_PAIRING_CALL_SEND_IDENTITY_ADDRESS_INFORMATION 0x09
#define LEGACY_PAIRING_CALL_SEND_IDENTITY_ADDRESS_INFORMATION_BODY_SIZE 7
#define LEGACY_PAIRING_CALL_SEND_IDENTITY_ADDRESS_INFORMATION_ANSWER_SIZE 1

/* -- Events: tell the application. Answer: a verdict. */

/* The pairing has failed. Body: a failure, its kind and its detail (below). The verdict changes nothing. */
#define LEGACY_PAIRING_CALL_EVENT_PAIRING_FAILED 0x20
#define LEGACY_PAIRING_CALL_EVENT_PAIRING_FAILED_BODY_SIZE 2
#define LEGACY_PAIRING_CALL_EVENT_PAIRING_FAILED_ANSWER_SIZE 1
/* The pairing is complete. Body: the level; YES and the bond where both ends bond, else NO and zeros. The
 * verdict changes nothing. A machine that succeeds with no bond held does not list it
 * (CALL_ENABLE_BONDED_ENCRYPTION answered NO): legacy_pairing_result tells. */
#define LEGACY_PAIRING_CALL_EVENT_PAIRING_COMPLETE 0x21
#define LEGACY_PAIRING_CALL_EVENT_PAIRING_COMPLETE_BODY_SIZE 53
#define LEGACY_PAIRING_CALL_EVENT_PAIRING_COMPLETE_ANSWER_SIZE 1
#define LEGACY_PAIRING_CALL_EVENT_PAIRING_COMPLETE_BODY_LEVEL_OFFSET 0
#define LEGACY_PAIRING_CALL_EVENT_PAIRING_COMPLETE_BODY_PRESENT_OFFSET 1
#define LEGACY_PAIRING_CALL_EVENT_PAIRING_COMPLETE_BODY_BOND_OFFSET 2
/* Show a passkey. Body: the passkey, at most PASS_KEY_MAX: six decimal digits. */
#define LEGACY_PAIRING_CALL_EVENT_PASS_KEY_DISPLAY 0x22
#define LEGACY_PAIRING_CALL_EVENT_PASS_KEY_DISPLAY_BODY_SIZE 4
#define LEGACY_PAIRING_CALL_EVENT_PASS_KEY_DISPLAY_ANSWER_SIZE 1
/* Have a passkey typed. What comes of it is INPUT_PASS_KEY_INPUT or INPUT_PASS_KEY_CANCEL, later. */
#define LEGACY_PAIRING_CALL_EVENT_PASS_KEY_INPUT 0x23
#define LEGACY_PAIRING_CALL_EVENT_PASS_KEY_INPUT_BODY_SIZE 0
#define LEGACY_PAIRING_CALL_EVENT_PASS_KEY_INPUT_ANSWER_SIZE 1
/* The peer asks for a new pairing though CALL_ASK_FIND_BOND was answered YES. The verdict changes nothing.
 * The head's. */
#define LEGACY_PAIRING_CALL_EVENT_BOND_LOST 0x24
#define LEGACY_PAIRING_CALL_EVENT_BOND_LOST_BODY_SIZE 0
#define LEGACY_PAIRING_CALL_EVENT_BOND_LOST_ANSWER_SIZE 1
/* Have the out-of-band value read. It comes by INPUT_OOB_DATA_RECEIVED, later. */
#define LEGACY_PAIRING_CALL_EVENT_OOB_REQUEST 0x25
#define LEGACY_PAIRING_CALL_EVENT_OOB_REQUEST_BODY_SIZE 0
#define LEGACY_PAIRING_CALL_EVENT_OOB_REQUEST_ANSWER_SIZE 1

/* -- Questions */

/* Has the host a bond with this peer? Answer: YES or NO. The head's. */
#define LEGACY_PAIRING_CALL_ASK_FIND_BOND 0x30
#define LEGACY_PAIRING_CALL_ASK_FIND_BOND_BODY_SIZE 0
#define LEGACY_PAIRING_CALL_ASK_FIND_BOND_ANSWER_SIZE 1
/* This end's IRK. Answer: the IRK; all zero where there is none. */
#define LEGACY_PAIRING_CALL_ASK_LOCAL_IRK 0x31
#define LEGACY_PAIRING_CALL_ASK_LOCAL_IRK_BODY_SIZE 0
#define LEGACY_PAIRING_CALL_ASK_LOCAL_IRK_ANSWER_SIZE 16
/* This end's identity address. Answer: a verdict, then the address. */
#define LEGACY_PAIRING_CALL_ASK_IDENTITY_ADDRESS 0x32
#define LEGACY_PAIRING_CALL_ASK_IDENTITY_ADDRESS_BODY_SIZE 0
#define LEGACY_PAIRING_CALL_ASK_IDENTITY_ADDRESS_ANSWER_SIZE 8
#define LEGACY_PAIRING_CALL_ASK_IDENTITY_ADDRESS_ANSWER_ADDRESS_OFFSET 1
/* Does this end want to bond? Answer: YES or NO. The head's. */
#define LEGACY_PAIRING_CALL_ASK_BONDING_FLAG 0x33
#define LEGACY_PAIRING_CALL_ASK_BONDING_FLAG_BODY_SIZE 0
#define LEGACY_PAIRING_CALL_ASK_BONDING_FLAG_ANSWER_SIZE 1
/* Has the host out-of-band data of this peer? Answer: YES or NO. The head's. */
#define LEGACY_PAIRING_CALL_ASK_OOB_AVAILABLE 0x34
#define LEGACY_PAIRING_CALL_ASK_OOB_AVAILABLE_BODY_SIZE 0
#define LEGACY_PAIRING_CALL_ASK_OOB_AVAILABLE_ANSWER_SIZE 1

/* -- Draws, of a generator that is fit for keys */

/* A nonce. Answer: sixteen octets, here most significant first. All zero counts as 1. */
#define LEGACY_PAIRING_CALL_DRAW_NONCE 0x35
#define LEGACY_PAIRING_CALL_DRAW_NONCE_BODY_SIZE 0
#define LEGACY_PAIRING_CALL_DRAW_NONCE_ANSWER_SIZE 16
/* A passkey. Answer: a number of four octets; above PASS_KEY_MAX it is forbidden. */
#define LEGACY_PAIRING_CALL_DRAW_PASS_KEY 0x36
#define LEGACY_PAIRING_CALL_DRAW_PASS_KEY_BODY_SIZE 0
#define LEGACY_PAIRING_CALL_DRAW_PASS_KEY_ANSWER_SIZE 4
#define LEGACY_PAIRING_PASS_KEY_MAX 999999
/* An LTK. Answer: sixteen octets. */
#define LEGACY_PAIRING_CALL_DRAW_LTK 0x37
#define LEGACY_PAIRING_CALL_DRAW_LTK_BODY_SIZE 0
#define LEGACY_PAIRING_CALL_DRAW_LTK_ANSWER_SIZE 16
/* An EDIV. Answer: two octets. */
#define LEGACY_PAIRING_CALL_DRAW_EDIV 0x38
#define LEGACY_PAIRING_CALL_DRAW_EDIV_BODY_SIZE 0
#define LEGACY_PAIRING_CALL_DRAW_EDIV_ANSWER_SIZE 2
/* A Rand. Answer: eight octets. */
#define LEGACY_PAIRING_CALL_DRAW_RAND 0x39
#define LEGACY_PAIRING_CALL_DRAW_RAND_BODY_SIZE 0
#define LEGACY_PAIRING_CALL_DRAW_RAND_ANSWER_SIZE 8

/* -- Encryption and bonds */

/* Have the link encrypted with this short-term key. What comes of it is INPUT_LINK_ENCRYPTED_RESULT, later.
 * Body: the key, cut to the key size; the level; the key size. Answer: a verdict, then the bond that the
 * machine holds from now on: this key as LTK, EDIV and Rand zero, IS_BONDED NO, this level, no IRK, the
 * peer's address. Keys that pass later take the places of these. */
#define LEGACY_PAIRING_CALL_ENABLE_ENCRYPTION 0x3A
#define LEGACY_PAIRING_CALL_ENABLE_ENCRYPTION_BODY_SIZE 18
#define LEGACY_PAIRING_CALL_ENABLE_ENCRYPTION_ANSWER_SIZE 52
#define LEGACY_PAIRING_CALL_ENABLE_ENCRYPTION_BODY_KEY_OFFSET 0
#define LEGACY_PAIRING_CALL_ENABLE_ENCRYPTION_BODY_LEVEL_OFFSET 16
#define LEGACY_PAIRING_CALL_ENABLE_ENCRYPTION_BODY_KEY_SIZE_OFFSET 17
#define LEGACY_PAIRING_CALL_ENABLE_ENCRYPTION_ANSWER_BOND_OFFSET 1
/* By which bond was the link encrypted? Asked where INPUT_LINK_ENCRYPTED_RESULT comes before any request.
 * Answer: a verdict; YES and the bond, or NO and any octets. The head's. */
#define LEGACY_PAIRING_CALL_ENABLE_BONDED_ENCRYPTION 0x3B
#define LEGACY_PAIRING_CALL_ENABLE_BONDED_ENCRYPTION_BODY_SIZE 0
#define LEGACY_PAIRING_CALL_ENABLE_BONDED_ENCRYPTION_ANSWER_SIZE 53
#define LEGACY_PAIRING_CALL_ENABLE_BONDED_ENCRYPTION_ANSWER_PRESENT_OFFSET 1
#define LEGACY_PAIRING_CALL_ENABLE_BONDED_ENCRYPTION_ANSWER_BOND_OFFSET 2
/* Store the bond with this peer. Body: the bond. Answer: a verdict, which changes nothing. Where the head's
 * encryption key was sent, the bonds of both ends have it as LTK, cut to the key size, with its EDIV and Rand;
 * the terminal's own are sent and not kept. */
#define LEGACY_PAIRING_CALL_UPDATE_BOND 0x3C
#define LEGACY_PAIRING_CALL_UPDATE_BOND_BODY_SIZE 51
#define LEGACY_PAIRING_CALL_UPDATE_BOND_ANSWER_SIZE 1

/* ==== A bond, BOND_SIZE octets */

#define LEGACY_PAIRING_BOND_LTK_OFFSET 0        /* 16 */
#define LEGACY_PAIRING_BOND_EDIV_OFFSET 16      /* 2 */
#define LEGACY_PAIRING_BOND_RAND_OFFSET 18      /* 8 */
#define LEGACY_PAIRING_BOND_IS_BONDED_OFFSET 26 /* YES or NO; in an answer any other octet is forbidden */
#define LEGACY_PAIRING_BOND_LEVEL_OFFSET 27     /* the security level */
#define LEGACY_PAIRING_BOND_IRK_OFFSET 28       /* 16: the peer's, all zero where there is none */
#define LEGACY_PAIRING_BOND_ADDRESS_OFFSET 44   /* the peer's address: its kind, then the six octets */

/* ==== A failure: the body of CALL_EVENT_PAIRING_FAILED, and what legacy_pairing_result gives */

#define LEGACY_PAIRING_FAILURE_KIND_OFFSET 0
#define LEGACY_PAIRING_FAILURE_DETAIL_OFFSET 1

#define LEGACY_PAIRING_FAILURE_NONE 0          /* legacy_pairing_result alone: the machine has not failed */
#define LEGACY_PAIRING_FAILURE_SECURITY 1      /* detail: a reason, below */
#define LEGACY_PAIRING_FAILURE_INVALID_STATE 2 /* an input that the machine does not expect; detail 0 */
#define LEGACY_PAIRING_FAILURE_INVALID_VALUE 3 /* a value of the peer's that is none; detail 0 */
#define LEGACY_PAIRING_FAILURE_OUT_OF_MEMORY 4 /* VERDICT_OUT_OF_MEMORY; detail 0 */
#define LEGACY_PAIRING_FAILURE_HOST 5          /* detail: the host's verdict */

/* Reasons (Part H 3.5.5), the peer's in its Pairing Failed or the machine's own. Of a peer's reason that is 0,
 * above REASON_BUSY or not there, a machine makes REASON_UNSPECIFIED_REASON. */
#define LEGACY_PAIRING_REASON_SUCCESS 0x00 /* a record may have it; no machine gives it */
#define LEGACY_PAIRING_REASON_PASSKEY_ENTRY_FAILED 0x01
#define LEGACY_PAIRING_REASON_OOB_NOT_AVAILABLE 0x02
#define LEGACY_PAIRING_REASON_AUTHENTICATION_REQUIREMENTS 0x03
#define LEGACY_PAIRING_REASON_CONFIRM_VALUE_FAILED 0x04
#define LEGACY_PAIRING_REASON_PAIRING_NOT_SUPPORTED 0x05
#define LEGACY_PAIRING_REASON_SHORT_ENCRYPTION_KEY 0x06 /* Encryption Key Size */
#define LEGACY_PAIRING_REASON_COMMAND_NOT_SUPPORTED 0x07
#define LEGACY_PAIRING_REASON_UNSPECIFIED_REASON 0x08
#define LEGACY_PAIRING_REASON_REPEATED_ATTEMPTS 0x09
#define LEGACY_PAIRING_REASON_INVALID_PARAMETERS 0x0A
#define LEGACY_PAIRING_REASON_DHKEY_CHECK_FAILED 0x0B
#define LEGACY_PAIRING_REASON_NUMERIC_COMPARISON_FAILED 0x0C
#define LEGACY_PAIRING_REASON_BR_EDR_PAIRING_IN_PROGRESS 0x0D
#define LEGACY_PAIRING_REASON_GENERATION_NOT_ALLOWED 0x0E
#define LEGACY_PAIRING_REASON_KEY_REJECTED 0x0F
#define LEGACY_PAIRING_REASON_BUSY 0x10

/* ==== Octets of a machine's record that a host may read. The rest is the machine's own. Write none of it */

#define LEGACY_PAIRING_MACHINE_LOCAL_ADDRESS_OFFSET 82
#define LEGACY_PAIRING_MACHINE_PEER_ADDRESS_OFFSET 89  /* its identity address, once that has come */
/* The features of this end and of the peer: the request and the response, from the step on that takes the
 * request at the head, the response at the terminal. The key size of the pairing is the smaller of the two.
 * Both ends bond where both have AUTH_BONDING. */
#define LEGACY_PAIRING_MACHINE_LOCAL_FEATURES_OFFSET 96
#define LEGACY_PAIRING_MACHINE_PEER_FEATURES_OFFSET 102
#define LEGACY_PAIRING_MACHINE_METHOD_OFFSET 108       /* the method, from the same step on */
/* YES where the machine holds a bond, also after a failure; else NO. What is to be stored comes by
 * CALL_UPDATE_BOND, and not from here. */
#define LEGACY_PAIRING_MACHINE_BOND_PRESENT_OFFSET 109
#define LEGACY_PAIRING_MACHINE_BOND_OFFSET 110         /* the bond, or zeros */

/* Methods. */
#define LEGACY_PAIRING_METHOD_JUST_WORKS 0
#define LEGACY_PAIRING_METHOD_NUMERIC_COMPARISON 1 /* a record may have it; no pairing chooses it */
#define LEGACY_PAIRING_METHOD_TERMINAL_DISPLAYS 2
#define LEGACY_PAIRING_METHOD_HEAD_DISPLAYS 3
#define LEGACY_PAIRING_METHOD_BOTH_INPUT 4
#define LEGACY_PAIRING_METHOD_OUT_OF_BAND 5
#define LEGACY_PAIRING_METHOD_BOTH_DISPLAY 6 /* a record may have it; no pairing chooses it */

/* ==== How a machine stands */

#define LEGACY_PAIRING_PENDING 0
#define LEGACY_PAIRING_SUCCESS 1
#define LEGACY_PAIRING_FAILED 2

/* Reads how a machine stands.
 *   `*result`        PENDING, SUCCESS or FAILED.
 *   `*error`         FAILED: the kind of failure, with its detail in `*detail`. Else both are 0.
 *   `*is_encrypted`  YES in the phases in which the link is encrypted: from INPUT_LINK_ENCRYPTED_RESULT with
 *                    YES on, and not after a failure. Else NO.
 *   `*level`         where that is YES, the level of the bond that the machine holds. LEVEL_NONE where that
 *                    is NO, or no bond is held.
 * Refused: E_NO_ROLE; E_MACHINE_LENGTH, E_MACHINE_PHASE, E_MACHINE_FEATURES, E_MACHINE_METHOD,
 * E_MACHINE_BOND, E_NOT_CANONICAL. */
uint8_t legacy_pairing_result(uint8_t role, const uint8_t *machine, size_t machine_len,
                              uint8_t *result, uint8_t *error, uint8_t *detail,
                              uint8_t *is_encrypted, uint8_t *level);

/* ==== Features */

/* Reads features from the payload of a Pairing Request or Response, of which only these octets are read.
 * `fields` has FEATURES_SIZE octets, and gets them.
 * Refused: E_FEATURES_CUT; E_BAD_FEATURES; E_WRONG_LENGTH (the fields). */
uint8_t legacy_pairing_read_features(const uint8_t *payload, size_t payload_len,
                                     uint8_t *fields, size_t fields_len);

/* Writes features of these fields as a payload of FEATURES_SIZE octets. Any key size is written.
 * Refused: E_BAD_FEATURES (I/O or OOB); E_WRONG_LENGTH. */
uint8_t legacy_pairing_write_features(uint8_t io, uint8_t oob, uint8_t auth_req, uint8_t key_size,
                                      uint8_t initiator_keys, uint8_t responder_keys,
                                      uint8_t *payload, size_t payload_len);

/* ==== Values of Part H, for tests: a step works them out by itself */

/* The confirm value c1 (2.2.3). k, r and the confirm value have VALUE_SIZE octets, preq and pres
 * PAIRING_PDU_SIZE, both addresses ADDRESS_SIZE.
 * Refused: E_WRONG_LENGTH. */
uint8_t legacy_pairing_c1(const uint8_t *k, size_t k_len,
                          const uint8_t *r, size_t r_len,
                          const uint8_t *preq, size_t preq_len,
                          const uint8_t *pres, size_t pres_len,
                          const uint8_t *initiator, size_t initiator_len,
                          const uint8_t *responder, size_t responder_len,
                          uint8_t *confirm, size_t confirm_len);

/* The short-term key s1 (2.2.4). Each string has VALUE_SIZE octets.
 * Refused: E_WRONG_LENGTH. */
uint8_t legacy_pairing_s1(const uint8_t *k, size_t k_len,
                          const uint8_t *srand, size_t srand_len,
                          const uint8_t *mrand, size_t mrand_len,
                          uint8_t *key, size_t key_len);

/* ==== Reading a call list: pass the first `*written` octets of a step's list */

/* The number of calls on a list.
 * Refused: E_BAD_CALL_LIST. */
uint8_t legacy_pairing_count_calls(const uint8_t *list, size_t list_len, size_t *count);

/* The call at an index, counted from 0: its kind, and the place and the size of its body on the list.
 * Refused: E_BAD_CALL_LIST; E_NO_CALL. */
uint8_t legacy_pairing_call_at(const uint8_t *list, size_t list_len, size_t index,
                               uint8_t *kind, size_t *body, size_t *size);

#ifdef __cplusplus
}
#endif

#endif
