package org.telovamish.tbclient;

import java.util.ArrayList;
import java.util.LinkedHashMap;
import java.util.List;
import java.util.Map;

/**
 * Reads JSON strictly. Objects are maps, lists lists, texts Strings, truth values Booleans, null is
 * null, and a number is its text as a {@link Number}.
 */
final class Json {
    private static final int DEPTH_MAX = 500;

    private final String text;
    private int at;
    private int depth;

    private Json(String text) {
        this.text = text;
    }

    /** It is no JSON, or has two fields of one name. */
    static final class Fault extends Exception {
        private static final long serialVersionUID = 1L;

        Fault(String message) {
            super(message);
        }
    }

    /** A number, as it was written. */
    record Number(String text) {
        boolean isInteger() {
            return text.chars().allMatch(it -> it == '-' || it >= '0' && it <= '9');
        }
    }

    static Object read(String text) throws Fault {
        Json json = new Json(text);
        Object value = json.value();
        json.space();
        if (json.at < text.length()) {
            throw json.fault("more behind the value");
        }
        return value;
    }

    private Object value() throws Fault {
        space();
        switch (peek()) {
            case '{':
                return object();
            case '[':
                return list();
            case '"':
                return string();
            case 't':
                return word("true", true);
            case 'f':
                return word("false", false);
            case 'n':
                return word("null", null);
            default:
                return number();
        }
    }

    private Map<String, Object> object() throws Fault {
        Map<String, Object> found = new LinkedHashMap<>();
        enter();
        space();
        if (!takes('}')) {
            do {
                space();
                String name = string();
                space();
                need(':');
                Object value = value();
                if (found.containsKey(name)) {
                    throw fault("two fields " + name.substring(0, Math.min(40, name.length())));
                }
                found.put(name, value);
                space();
            } while (takes(','));
            need('}');
        }
        depth--;
        return found;
    }

    private List<Object> list() throws Fault {
        List<Object> found = new ArrayList<>();
        enter();
        space();
        if (!takes(']')) {
            do {
                found.add(value());
                space();
            } while (takes(','));
            need(']');
        }
        depth--;
        return found;
    }

    private void enter() throws Fault {
        at++;
        depth++;
        if (depth > DEPTH_MAX) {
            throw fault("nested too deeply");
        }
    }

    private String string() throws Fault {
        need('"');
        StringBuilder found = new StringBuilder();
        while (true) {
            char it = peek();
            at++;
            if (it == '"') {
                return found.toString();
            }
            if (it < ' ') {
                throw fault("a control character in a text");
            }
            found.append(it == '\\' ? escaped() : it);
        }
    }

    private char escaped() throws Fault {
        char it = peek();
        at++;
        int place = "\"\\/bfnrt".indexOf(it);
        if (place >= 0) {
            return "\"\\/\b\f\n\r\t".charAt(place);
        }
        if (it != 'u' || at + 4 > text.length()) {
            throw fault("no such escape");
        }
        int code = 0;
        for (int end = at + 4; at < end; at++) {
            int digit = Character.digit(text.charAt(at), 16);
            if (digit < 0) {
                throw fault("no such escape");
            }
            code = 16 * code + digit;
        }
        return (char) code;
    }

    private Object word(String word, Object value) throws Fault {
        if (!text.startsWith(word, at)) {
            throw fault("no value");
        }
        at += word.length();
        return value;
    }

    private Number number() throws Fault {
        int begin = at;
        takes('-');
        if (!takes('0')) {
            digits();
        }
        if (takes('.')) {
            digits();
        }
        if (takes('e') || takes('E')) {
            if (!takes('+')) {
                takes('-');
            }
            digits();
        }
        return new Number(text.substring(begin, at));
    }

    private void digits() throws Fault {
        int begin = at;
        while (at < text.length() && text.charAt(at) >= '0' && text.charAt(at) <= '9') {
            at++;
        }
        if (at == begin) {
            throw fault("no value");
        }
    }

    private void space() {
        while (at < text.length() && " \t\n\r".indexOf(text.charAt(at)) >= 0) {
            at++;
        }
    }

    private boolean takes(char wanted) {
        if (at < text.length() && text.charAt(at) == wanted) {
            at++;
            return true;
        }
        return false;
    }

    private void need(char wanted) throws Fault {
        if (!takes(wanted)) {
            throw fault("no " + wanted);
        }
    }

    private char peek() throws Fault {
        if (at >= text.length()) {
            throw fault("it ends there");
        }
        return text.charAt(at);
    }

    private Fault fault(String what) {
        return new Fault(what + " (at " + at + ")");
    }
}
