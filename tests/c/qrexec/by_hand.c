#include "by_hand.h"
#include <string.h>

static inline uint32_t number(const uint8_t *p)
{
	return p[0] | (uint32_t)p[1] << 8 | (uint32_t)p[2] << 16 | (uint32_t)p[3] << 24;
}

static inline struct qrexec_span text(const uint8_t *p, uint32_t at, uint32_t most)
{
	return (struct qrexec_span){at, (uint32_t)strnlen((const char *)p + at, most)};
}

static uint32_t faulty(struct qrexec_reader *reader, uint32_t fault, uint32_t kind, uint32_t len)
{
	reader->fault = fault, reader->kind = kind, reader->len = len;
	return QREXEC_FAULTY;
}

uint32_t by_hand(struct qrexec_reader *reader, const uint8_t *p, size_t have, struct qrexec_found *found)
{
	struct qrexec_found f = {0};
	uint32_t kind, len, least, most = 65536;
	bool line = false;

	if (reader->channel > 1 || reader->fault > 4)
		return QREXEC_REFUSED;
	if (reader->fault)
		return QREXEC_FAULTY;
	if (have < 8)
		return QREXEC_LESS;
	f.kind = kind = number(p);
	f.len = len = number(p + 4);
	switch (reader->channel == QREXEC_DATA && kind >= 0x200 && kind != QREXEC_HELLO ? 0 :
		reader->channel == QREXEC_CONTROL && kind < 0x200 ? 0 : kind) {
	case QREXEC_STDIN: case QREXEC_STDOUT: case QREXEC_STDERR: least = 0; break;
	case QREXEC_EXIT_CODE: case QREXEC_HELLO: least = most = 4; break;
	case QREXEC_EXEC: case QREXEC_JUST_EXEC: least = 9; line = true; break;
	case QREXEC_CONNECT: least = most = 40; break;
	case QREXEC_REFUSED_CALL: least = most = 32; break;
	case QREXEC_TRIGGER: least = most = 128; break;
	case QREXEC_TERMINATED: least = most = 8; break;
	case QREXEC_TRIGGER3: least = 97; line = true; break;
	default: return faulty(reader, QREXEC_UNKNOWN_TYPE, kind, 0);
	}
	if (len > 65536)
		return faulty(reader, QREXEC_TOO_LONG, kind, len);
	if (len < least || most < len)
		return faulty(reader, QREXEC_BAD_LENGTH, kind, len);
	if (have < 8 + (size_t)len)
		return QREXEC_LESS;
	if (line && p[8 + len - 1])
		return faulty(reader, QREXEC_NO_NUL, kind, 0);
	switch (kind) {
	case QREXEC_EXIT_CODE: case QREXEC_HELLO: f.first = number(p + 8); break;
	case QREXEC_EXEC: case QREXEC_JUST_EXEC: f.first = number(p + 8), f.second = number(p + 12), f.text = text(p, 16, len - 8); break;
	case QREXEC_CONNECT: f.first = number(p + 8), f.second = number(p + 12), f.ident = text(p, 16, 31); break;
	case QREXEC_REFUSED_CALL: f.ident = text(p, 8, 31); break;
	case QREXEC_TERMINATED: f.first = number(p + 8), f.second = number(p + 12); break;
	case QREXEC_TRIGGER3: f.target = text(p, 8, 63), f.ident = text(p, 72, 31), f.text = text(p, 104, len - 96); break;
	case QREXEC_TRIGGER: f.text = text(p, 8, 63), f.target = text(p, 72, 31), f.ident = text(p, 104, 31); break;
	}
	*found = f;
	reader->at += 8 + len;
	return QREXEC_FOUND;
}
