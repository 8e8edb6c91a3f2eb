package org.slf4j;

import java.lang.reflect.Proxy;
import stand.World;

public final class LoggerFactory {
    private LoggerFactory() {
    }

    public static Logger getLogger(Class<?> type) {
        return (Logger) Proxy.newProxyInstance(Logger.class.getClassLoader(), new Class<?>[] {Logger.class}, (proxy, method, arguments) -> {
            World.now().log.add(method.getName() + " " + arguments[0] + " " + stand.Shown.of(arguments[1]));
            return null;
        });
    }
}
