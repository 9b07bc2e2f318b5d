#!/usr/bin/env python3
"""Writes crates/vectors/stdin and crates/vectors/stdout: public vectors, and what they should give; crates/ccm_bench/stdin, the
frame whose opening bench/ccm counts; and crates/firmware_hash/stdin and stdout, a file of 8,193 bytes and its hash.

    python3 tools/vectors.py            write the files
    python3 tools/vectors.py --check    say whether they are as this program would write them

Needs Python 3.8 or newer and the package `cryptography` (Debian: python3-cryptography), whose AES and CCM are OpenSSL's.
Each value that a document prints is computed here before it is believed: AES by OpenSSL; CCM by OpenSSL and once more written
out from RFC 3610; the hash and the keyed hash written out from Zigbee Annex B.6 and RFC 2104 over OpenSSL's AES. Nothing of
the project's own code has a part in it.
"""
import pathlib
import sys

from cryptography.hazmat.primitives.ciphers import Cipher, algorithms, modes
from cryptography.hazmat.primitives.ciphers.aead import AESCCM

H = bytes.fromhex


def run(first, last):
    """The bytes first, first + 1, .., last."""
    return bytes(range(first, last + 1))


def xor(a, b):
    return bytes(p ^ q for p, q in zip(a, b))


def aes(key, block):
    encryptor = Cipher(algorithms.AES(key), modes.ECB()).encryptor()
    return encryptor.update(block) + encryptor.finalize()


def ccm(key, nonce, data, text, length):
    """RFC 3610, section 2, with L = 2."""
    flags = (64 if data else 0) + (length - 2) // 2 * 8 + 1
    mac = aes(key, bytes([flags]) + nonce + len(text).to_bytes(2, 'big'))
    lead = len(data).to_bytes(2, 'big') + data if data else b''
    padded = lead + bytes(-len(lead) % 16) + text + bytes(-len(text) % 16)
    for i in range(0, len(padded), 16):
        mac = aes(key, xor(mac, padded[i:i + 16]))
    stream = [aes(key, b'\x01' + nonce + i.to_bytes(2, 'big')) for i in range(len(text) // 16 + 2)]
    return xor(text, b''.join(stream[1:])) + xor(mac, stream[0])[:length]


def sealed(key, nonce, data, text, length):
    result = ccm(key, nonce, data, text, length)
    assert result == AESCCM(key, tag_length=length).encrypt(nonce, text, data)
    return result


def blocks(value, text):
    for i in range(0, len(text), 16):
        value = xor(aes(value, text[i:i + 16]), text[i:i + 16])
    return value


def padding(size):
    """Zigbee Annex B.6, after so many bytes."""
    if size < 8192:
        return b'\x80' + bytes((13 - size) % 16) + (8 * size).to_bytes(2, 'big')
    return b'\x80' + bytes((9 - size) % 16) + (8 * size).to_bytes(4, 'big') + bytes(2)


def mmo(text, initial=b''):
    """Zigbee Annex B.6."""
    return blocks((initial + bytes(16))[:16], text + padding(len(text)))


def keyed(key, text):
    """RFC 2104, section 2, with B = 16."""
    key = mmo(key) if len(key) > 16 else key
    key += bytes(16 - len(key))
    return mmo(xor(key, b'\x5c' * 16) + mmo(xor(key, b'\x36' * 16) + text))


NAME, KEY, NONCE, ASSOCIATED, DATA, TAG, LONG, LONG_KEY, LONG_DATA, RUN = 1, 2, 3, 4, 5, 6, 7, 8, 9, 16
AES, CCM, HASH, HASH_FROM, KEYED = 1, 2, 3, 4, 5
LONG_TEXT = bytes(i % 256 for i in range(8192))
fields, lines = [], []


def field(tag, value):
    """A key or data that begin the long text are given by their length."""
    if tag in (KEY, DATA) and len(value) > 32 and LONG_TEXT.startswith(value):
        tag, value = (LONG_KEY if tag == KEY else LONG_DATA), len(value).to_bytes(2, 'little')
    fields.append(bytes([tag]) + len(value).to_bytes(2, 'little') + value)


def vector(kind, name, line, *values):
    field(NAME, name.encode())
    for tag, value in values:
        field(tag, value)
    field(RUN, bytes([kind]))
    lines.append(f'{name}: {line}\n')


def printed(computed, document):
    assert document is None or computed == H(document), (computed.hex(), document)
    return computed


def aes_vector(name, key, block, document):
    vector(AES, name, printed(aes(key, block), document).hex(), (KEY, key), (DATA, block))


def ccm_vector(name, key, nonce, data, text, length, document):
    result = printed(sealed(key, nonce, data, text, length), document)
    line = f'sealed 0 {result.hex()}, opened 0 {text.hex()}, with a changed tag 5 {result[:len(text)].hex()}'
    vector(CCM, name, line, (KEY, key), (NONCE, nonce), (ASSOCIATED, bytes([len(data)])), (DATA, data + text), (TAG, bytes([length])))


def digest_line(value, document=None):
    return f'0 {printed(value, document).hex()}'


def hash_vector(name, text, document=None):
    vector(HASH, name, digest_line(mmo(text), document), (DATA, text))


def hash_from_vector(name, initial, text):
    vector(HASH_FROM, name, digest_line(mmo(text, initial)), (KEY, initial), (DATA, text))


def keyed_vector(name, key, text, document=None):
    vector(KEYED, name, digest_line(keyed(key, text), document), (KEY, key), (DATA, text))


def aes_vectors():
    aes_vector('FIPS 197 appendix B', H('2b7e151628aed2a6abf7158809cf4f3c'), H('3243f6a8885a308d313198a2e0370734'),
               '3925841d02dc09fbdc118597196a0b32')
    aes_vector('FIPS 197 appendix C.1', run(0, 15), H('00112233445566778899aabbccddeeff'), '69c4e0d86a7b0430d8cdb78070b4c55a')
    pairs = '''6bc1bee22e409f96e93d7e117393172a 3ad77bb40d7a3660a89ecaf32466ef97
               ae2d8a571e03ac9c9eb76fac45af8e51 f5d3d58503b9699de785895a96fdbaaf
               30c81c46a35ce411e5fbc1191a0a52ef 43b1cd7f598ece23881b00e3ed030688
               f69f2445df4f9b17ad2b417be66c3710 7b0c785e27e8ad3f8223207104725dd4'''.split()
    for i in range(4):
        aes_vector(f'SP 800-38A F.1.1 block {i + 1}', H('2b7e151628aed2a6abf7158809cf4f3c'), H(pairs[2 * i]), pairs[2 * i + 1])


def rfc3610_vectors():
    results = '''588C979A61C663D2F066D0C2C0F989806D5F6B61DAC38417E8D12CFDF926E0
        72C91A36E135F8CF291CA894085C87E3CC15C439C9E43A3BA091D56E10400916
        51B1E5F44A197D1DA46B0F8E2D282AE871E838BB64DA8596574ADAA76FBD9FB0C5
        A28C6865939A9A79FAAA5C4C2A9D4A91CDAC8C96C861B9C9E61EF1
        DCF1FB7B5D9E23FB9D4E131253658AD86EBDCA3E51E83F077D9C2D93
        6FC1B011F006568B5171A42D953D469B2570A4BD87405A0443AC91CB94
        0135D1B2C95F41D5D1D4FEC185D166B8094E999DFED96C048C56602C97ACBB7490
        7B75399AC0831DD2F0BBD75879A2FD8F6CAE6B6CD9B7DB24C17B4433F434963F34B4
        82531A60CC24945A4B8279181AB5C84DF21CE7F9B73F42E197EA9C07E56B5EB17E5F4E
        07342594157785152B074098330ABB141B947B566AA9406B4D999988DD
        676BB20380B0E301E8AB79590A396DA78B834934F53AA2E9107A8B6C022C
        C0FFA0D6F05BDB67F24D43A4338D2AA4BED7B20E43CD1AA31662E7AD65D6DB'''.split()
    for i, result in enumerate(results):
        packet, head = run(0, 30 + i % 3), 8 if i % 6 < 3 else 12
        nonce = bytes([0, 0, 0, 3 + i, 2 + i, 1 + i, i]) + run(0xa0, 0xa5)
        ccm_vector(f'RFC 3610 packet vector {i + 1}', run(0xc0, 0xcf), nonce, packet[:head], packet[head:], 8 if i < 6 else 10, result)
    rest = '''
        00412B4EA9CDBE 0BE1A88BACE018B1 08E8CF97D820EA258460E96AD9CF5289054D895CEAC47C
            4CB97F86A2A4689A877947AB8091EF5386A6FFBDD080F8E78CF7CB0CDDD7B3
        0033568EF7B263 63018F76DC8A1BCB 9020EA6F91BDD85AFA0039BA4BAFF9BFB79C7028949CD0EC
            4CCB1E7CA981BEFAA0726C55D378061298C85C92814ABC33C52EE81D7D77C08A
        00103FE4133671 AA6CFA36CAE86B40 B916E0EACC1C00D7DCEC68EC0B3BBB1A02DE8A2D1AA346132E
            B1D23A2220DDC0AC900D9AA03C61FCF4A559A4417767089708A776796EDB723506
        00764C63B8058E D0D0735C531E1BECF049C244 12DAAC5630EFA5396F770CE1A66B21F7B2101C
            14D253C3967B70609B7CBB7C499160283245269A6F49975BCADEAF
        00F8B678094E3B 77B60F011C03E1525899BCAE E88B6A46C78D63E52EB8C546EFB5DE6F75E9CC0D
            5545FF1A085EE2EFBF52B2E04BEE1E2336C73E3F762C0C7744FE7E3C
        00D560912D3F70 CD9044D2B71FDB8120EA60C0 6435ACBAFB11A82E2F071D7CA4A5EBD93A803BA87F
            009769ECABDF48625594C59251E6035722675E04C847099E5AE0704551
        0042FFF8F1951C D85BC7E69F944FB8 8A19B950BCF71A018E5E6701C91787659809D67DBEDD18
            BC218DAA947427B6DB386A99AC1AEF23ADE0B52939CB6A637CF9BEC2408897C6BA
        00920F40E56CDC 74A0EBC9069F5B37 1761433C37C5A35FC1F39F406302EB907C6163BE38C98437
            5810E6FD25874022E80361A478E3E9CF484AB04F447EFFF6F0A477CC2FC9BF548944
        0027CA0C7120BC 44A3AA3AAE6475CA A434A8E58500C6E41530538862D686EA9E81301B5AE4226BFA
            F2BEED7BC5098E83FEB5B31608F8E29C38819A89C8E776F1544D4151A4ED3A8B87B9CE
        005B8CCBCD9AF8 EC46BB63B02520C33C49FD70 B96B49E21D621741632875DB7F6C9243D2D7C2
            31D750A09DA3ED7FDDD49A2032AABF17EC8EBF7D22C8088C666BE5C197
        003EBE94044B9A 47A65AC78B3D594227E85E71 E2FCFBB880442C731BF95167C8FFD7895E337076
            E882F1DBD38CE3EDA7C23F04DD65071EB41342ACDF7E00DCCEC7AE52987D
        008D493B30AE8B 6E37A6EF546D955D34AB6059 ABF21C0B02FEB88F856DF4A37381BCE3CC128517D4
            F32905B88A641B04B9C9FFB58CC390900F3DA12AB16DCE9E82EFA16DA62059'''.split()
    for i in range(12):
        nonce, data, text, result = rest[4 * i:4 * i + 4]
        ccm_vector(f'RFC 3610 packet vector {i + 13}', H('D7828D13B2B0BDC325A76236DF93CC6B'), H(nonce) + H('3C9696766CFA'), H(data),
                   H(text), 8 if i < 6 else 10, result)


def zigbee_vectors():
    long = LONG_TEXT
    ccm_vector('Zigbee C.3', run(0xc0, 0xcf), run(0xa0, 0xa7) + H('0302010006'), run(0, 7), run(8, 0x1e), 8,
               '1A55A36ABB6C610D066B3375649CEF10D4664ECAD854A80A895CC1D8FF9469')
    for length in (4, 6, 12, 14, 16):
        ccm_vector(f'22 associated bytes, 34 of payload, a tag of {length}', run(0, 15), run(16, 28), run(0, 21), run(100, 133), length, None)
    ccm_vector('no associated data and no payload', run(0, 15), run(16, 28), b'', b'', 4, None)
    hash_vector('Zigbee C.5.1', b'\xc0', 'AE3A102A28D43EE0D4A09E22788B206C')
    hash_vector('Zigbee C.5.2', run(0xc0, 0xcf), 'A7977E88BC0B61E8210827109A228F2D')
    hash_vector('Zigbee C.5.3, 8,191 bytes', long[:8191], '24EC2FE75BBFFCB34789BC0610E7F165')
    hash_vector('8,192 bytes', long)
    for length in (0, 13, 14, 15, 16, 17, 30, 31, 32, 8189, 8190):
        hash_vector(f'hash of {length} bytes', long[:length])
    for length in (0, 5, 15, 16, 17):
        hash_from_vector(f'hash of 20 bytes from an initial block of {length}', run(0x30, 0x2f + length), long[:20])
    hash_from_vector('hash of 8,192 bytes from an initial block', run(0x30, 0x3f), long)
    keyed_vector('Zigbee C.6.1', run(0x40, 0x4f), b'\xc0', '4512807BF94CB3400F0E2C25FB76E999')
    keyed_vector('Zigbee C.6.2', run(0x40, 0x5f), run(0xc0, 0xcf), 'A3B0079984BF1557F74A0D6387E0A11A')
    keyed_vector('key-transport key of the trust centre link key', b'ZigBeeAlliance09', b'\x00', '4BAB0F173E1434A2D572E1C1EF478782')
    keyed_vector('key-load key of the trust centre link key', b'ZigBeeAlliance09', b'\x02')
    for length in (0, 1, 15, 16, 17):
        keyed_vector(f'a key of {length} bytes', long[:length], run(0xc0, 0xcf))
    keyed_vector('keyed hash of 8,175 bytes', run(0x40, 0x4f), long[:8175])
    keyed_vector('keyed hash of 8,176 bytes', run(0x40, 0x4f), long[:8176])
    keyed_vector('a key of 8,191 bytes', long[:8191], b'')
    keyed_vector('a key of 8,192 bytes', long, b'')


def opening_input(rounds, each):
    """What crates/ccm_bench reads: a frame of 22 associated bytes, 34 of payload and a tag of 4."""
    key, nonce, data, text = run(0, 15), run(16, 28), run(0, 21), run(100, 133)
    return rounds.to_bytes(2, 'little') + bytes([each, len(data), len(text), 4]) + key + nonce + data + sealed(key, nonce, data, text, 4)


def main():
    field(LONG, LONG_TEXT)
    aes_vectors()
    rfc3610_vectors()
    zigbee_vectors()
    crates = pathlib.Path(__file__).resolve().parent.parent / 'crates'
    file = bytes(i % 256 for i in range(8193))
    made = {'vectors/stdin': b''.join(fields), 'vectors/stdout': ''.join(lines).encode(), 'opening/stdin': opening_input(3, 1), 'opening/stdout': b'3\n',
            'firmware_hash/stdin': file, 'firmware_hash/stdout': mmo(file).hex().encode() + b'\n'}
    if '--check' in sys.argv[1:]:
        stale = [name for name, text in made.items() if (crates / name).read_bytes() != text]
        print(f'{len(lines)} vectors computed again;', f'{", ".join(stale)} differ' if stale else 'all files are as computed')
        sys.exit(bool(stale))
    for name, text in made.items():
        (crates / name).write_bytes(text)
    print(f'{len(lines)} vectors, {len(made["vectors/stdin"])} bytes of fields')


if __name__ == '__main__':
    main()
