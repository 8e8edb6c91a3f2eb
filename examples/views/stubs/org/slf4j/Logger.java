package org.slf4j;

public interface Logger {
    void debug(String text, Object... arguments);

    void info(String text, Object... arguments);

    void warn(String text, Object... arguments);

    void error(String text, Object... arguments);
}
